// Comparisons as a compiler writes them: for each `if` the branch of the opposite comparison, with a long target.
namespace Demo
{
    public static class Branches
    {
        public static int Equal(int a, int b) { if (a == b) return 1; return 0; }

        public static int Unequal(int a, int b) { if (a != b) return 1; return 0; }

        public static int Below(int a, int b) { if (a < b) return 1; return 0; }

        public static int AtMost(int a, int b) { if (a <= b) return 1; return 0; }

        public static int Above(int a, int b) { if (a > b) return 1; return 0; }

        public static int AtLeast(int a, int b) { if (a >= b) return 1; return 0; }

        public static int BelowUnsigned(int a, int b) { if ((uint)a < (uint)b) return 1; return 0; }

        public static int AtMostUnsigned(int a, int b) { if ((uint)a <= (uint)b) return 1; return 0; }

        public static int AboveUnsigned(int a, int b) { if ((uint)a > (uint)b) return 1; return 0; }

        public static int AtLeastUnsigned(int a, int b) { if ((uint)a >= (uint)b) return 1; return 0; }

        public static int IsZero(int a) { if (a == 0) return 1; return 0; }

        public static int IsNotZero(int a) { if (a != 0) return 1; return 0; }
    }
}
