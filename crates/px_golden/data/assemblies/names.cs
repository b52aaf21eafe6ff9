// Names of methods: without a namespace, in namespaces within namespaces, nested, private, of operators and properties, and of other letters than English has.
public static class Plain
{
    public static int F(int a) { if (a == 1) return 10; return 11; }
}

namespace Demo
{
    public static class Plain
    {
        public static int F(int a) { if (a == 2) return 20; return 21; }
    }

    public class Outer
    {
        public static int F(int a) { if (a == 3) return 30; return 31; }

        static int Secret(int a) { if (a == 4) return 40; return 41; }

        class Inner
        {
            static int F(int a) { if (a == 5) return 50; return 51; }

            class Innermost
            {
                static int F(int a) { if (a == 6) return 60; return 61; }
            }
        }

        public static int Seven { get { return 7; } }

        public static int Größe(int a) { if (a == 8) return 80; return 81; }
    }

    namespace Deep.Deeper
    {
        public static class Plain
        {
            public static int F(int a) { if (a == 9) return 90; return 91; }
        }
    }

    public static class Box<T>
    {
        public static int F(int a) { if (a == 10) return 100; return 101; }
    }
}
