// Exceptions: own ones and the library's, try with catch, finally and a condition, throwing again, and texts.
// Compiled by Mono's mcs with -target:library -optimize+.
using System;

namespace Demo {
    public class Refused : Exception {
        public readonly int Code;
        public Refused(int code, string text) : base(text) { Code = code; }
    }

    public static class Guards {
        static int depth;
        static string last;

        public static int Divide(int a, int b) {
            try {
                depth++;
                return Check(a) / b;
            } catch (DivideByZeroException) {
                last = "zero";
                return int.MaxValue;
            } catch (Refused refused) when (refused.Code > 1) {
                return refused.Code;
            } finally {
                depth--;
            }
        }

        static int Check(int a) {
            if (a < 0) { throw new Refused(-a, "below \u20ac 0\n"); }
            if (a == 7) { throw new ArgumentOutOfRangeException("a", "seven"); }
            return a;
        }

        public static bool Again(int a) {
            try {
                Check(a);
            } catch (Exception e) {
                if (e is Refused) { throw; }
                return ((object)e as ArgumentException) != null;
            }
            return depth == 0;
        }
    }
}
