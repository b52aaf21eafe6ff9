// Classes over an abstract one: virtual methods, one that is sealed, one in a new slot, and calls of a base's method.
// Compiled by Mono's mcs with -target:library -optimize+.
namespace Bank {
    public abstract class Account {
        protected int balance;
        public abstract int Fee(int amount);
        public virtual int Limit() { return balance; }
        public int Draw(int amount) {
            int fee = Fee(amount);
            if (amount + fee > Limit()) { return -1; }
            balance -= amount + fee;
            return fee;
        }
    }

    public class Plain : Account {
        public Plain() { balance = 100; }
        public override int Fee(int amount) { return 1; }
    }

    public class Credit : Plain {
        readonly int credit;
        public Credit(int credit) { this.credit = credit; }
        public sealed override int Limit() { return base.Limit() + credit; }
        public override int Fee(int amount) { return amount > 1000 ? base.Fee(amount) + 4 : 2; }
    }

    public class Closed : Plain {
        public new virtual int Limit() { return 0; }
        public int Ask() { return Limit(); }
    }

    public class Teller {
        public static int Serve(int amount, bool rich) {
            Account account = rich ? (Account)new Credit(500) : new Plain();
            return account.Draw(amount);
        }
        public int Turn(int amount) {
            var closed = new Closed();
            return closed.Ask() + closed.Draw(amount);
        }
    }
}
