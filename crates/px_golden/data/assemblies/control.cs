// Methods that are run today, of a class without a namespace: branches within branches, early returns, sums and loops.
public static class Control
{
    public static int Nothing() { return 0; }

    public static int Negative() { return -1; }

    public static int SignedByte() { return -128; }

    public static int FourBytes() { return 128; }

    public static int Least() { return -2147483648; }

    public static int Next(int a) { return a + 1; }

    public static int Previous(int a) { return a - 1; }

    public static int Sum(int a, int b, int c, int d) { return a + b - c + d; }

    public static int Both(int a, int b) { if (a == 1 && b == 2) return 1; return 0; }

    public static int Either(int a, int b) { if (a == 1 || b == 2) return 1; return 0; }

    public static int Clamp(int n, int low, int high)
    {
        if (n < low)
            return low;
        if (n > high)
            return high;
        return n;
    }

    public static int Quadrant(int x, int y)
    {
        if (x >= 0)
        {
            if (y >= 0)
                return 1;
            return 4;
        }
        if (y >= 0)
            return 2;
        return 3;
    }

    public static int OverflowTest(int a)
    {
        if (a + 1 < a)
            return 1;
        return 0;
    }

    public static int Middle(int a, int b, int c)
    {
        if (a < b)
        {
            if (b < c)
                return b;
            if (a < c)
                return c;
            return a;
        }
        if (a < c)
            return a;
        if (b < c)
            return c;
        return b;
    }

    public static int Again(int a)
    {
    again:
        if (a == 4)
            goto again;
        return 1;
    }

    public static int Wait(int a, int b)
    {
        while (a < b)
        {
        }
        return a - b;
    }

    public static int EmptyBranch(int a)
    {
        if (a > 2)
        {
        }
        return a;
    }
}
