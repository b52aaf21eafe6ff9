// Methods that are read and linked today, but not run yet: locals, calls, other instructions, other types, objects.
using System;

namespace Demo
{
    public static class Later
    {
        public static int Local(int a) { int b = a + a; return b - 1; }

        public static int Assignment(int a) { a = a + 1; return a; }

        public static int Product(int a, int b) { return a * b; }

        public static int Quotient(int a, int b) { return a / b; }

        public static int Checked(int a, int b) { return checked(a + b); }

        public static int Negated(int a) { return -a; }

        public static int Choice(int a, int b) { return a > b ? a : b; }

        public static int Call(int a) { return Product(a, a); }

        public static int Loop(int n) { int s = 0; for (int i = 0; i < n; i++) s += i; return s; }

        public static int Switch(int a) { switch (a) { case 0: return 5; case 1: return 6; case 2: return 7; default: return 8; } }

        public static bool IsPositive(int a) { return a > 0; }

        public static void Returns(int a) { }

        public static long Long(int a) { return a; }

        public static uint Unsigned(uint a) { return a; }

        public static int Truth(bool a) { if (a) return 1; return 0; }

        public static int Length(int[] a) { return a.Length; }

        public static int Five(int a, int b, int c, int d, int e) { return e; }

        public static int Throws(int a) { throw new InvalidOperationException(); }

        public static int Tries(int a) { try { return 10 / a; } catch (DivideByZeroException) { return 0; } }
    }

    public class Account
    {
        int balance;

        public int Deposit(int amount) { balance += amount; return balance; }

        public static int Open(int amount) { return new Account().Deposit(amount); }
    }
}
