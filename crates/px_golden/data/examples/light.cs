namespace Demo
{
    public static class Light
    {
        // Passes a light that is green (2), brakes where it is yellow (1), and else waits; but nothing that it waits for ever happens.
        public static int Pass(int colour)
        {
            if (colour == 2)
                return 1;
            if (colour == 1)
                return 0;
            for (;;)
            {
            }
        }
    }
}
