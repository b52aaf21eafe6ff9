namespace Demo
{
    public static class Parcel
    {
        // What a parcel of so many kilograms costs, or -1 where there is no such parcel.
        public static int Price(int kilograms)
        {
            if (kilograms <= 0)
                return -1;
            if (kilograms <= 2)
                return 4;
            if (kilograms < 2)
                return 3;
            if (kilograms <= 10)
                return 7;
            return kilograms - 3;
        }
    }
}
