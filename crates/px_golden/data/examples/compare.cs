namespace Demo
{
    public static class Numbers
    {
        // -1, 0 or 1, as a is below, equal to or above b.
        public static int Compare(int a, int b)
        {
            if (a < b)
                return -1;
            if (a > b)
                return 1;
            return 0;
        }
    }
}
