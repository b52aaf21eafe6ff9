// Methods that are refused by their name, their parameters or their form.
using System;
using System.Runtime.InteropServices;

namespace Demo
{
    public static class Refused
    {
        public static int Twice(int a) { return a; }

        public static int Twice(int a, int b) { return b; }

        public static int Text(string s) { return 0; }

        public static int Second(int a, object b) { return 0; }

        public static int Reference(ref int a) { return a; }

        public static int Objects(object[] a) { return 0; }

        public static int Float(double a) { return 0; }

        public static int Generic<T>(int a) { return a; }

        [DllImport("native")]
        public static extern int Native(int a);

        public static int Sixteen(int a, int b, int c, int d, int e, int f, int g, int h, int i, int j, int k, int l, int m, int n, int o, int p) { return p; }

        public static int Seventeen(int a, int b, int c, int d, int e, int f, int g, int h, int i, int j, int k, int l, int m, int n, int o, int p, int q) { return q; }
    }

    public interface IShape
    {
        int Area(int side);
    }

    public abstract class Shape
    {
        public abstract int Area(int side);

        public int Same(int side) { return side; }
    }

    public class Square
    {
        int side;

        public Square(int side) { this.side = side; }

        public int Area(int factor) { return side + factor; }
    }

    public class Circle
    {
        public int Area(int radius) { return radius; }
    }

    public struct Pair
    {
        public int Sum(int a) { return a; }
    }
}
