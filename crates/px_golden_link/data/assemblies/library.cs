// What isn't run: calls of the library, floats, generic types and boxes; beside a method that is run whole.
// Compiled by Mono's mcs with -target:library -optimize+.
using System.Collections.Generic;

namespace Demo {
    public interface IShape { int Area(); }

    public struct Pair : IShape {
        public int A, B;
        public int Area() { return A * B; }
    }

    public class Library {
        static readonly int seed = 3;

        public static int Text(int n) {
            string text = n.ToString() + "!";
            System.Console.WriteLine(text);
            return text.Length;
        }

        public static double Half(int n) { return n / 2.0; }

        public static int Shapes(int n) {
            var list = new List<int>();
            list.Add(n);
            Pair pair = new Pair { A = n, B = seed };
            IShape shape = pair;
            return shape.Area() + list.Count;
        }

        public static ulong Mix(char c, sbyte s, ushort u, ulong w, bool b) {
            unchecked {
                ulong mixed = w ^ (ulong)(long)s;
                if (b) { mixed = mixed >> 3 | ~(ulong)u; }
                return mixed % 10 + c;
            }
        }
    }
}
