import java.lang.annotation.Retention;
import java.lang.annotation.RetentionPolicy;

/** Methods that have annotations, and others. Each is called once. */
public class Named {
    @Retention(RetentionPolicy.CLASS)
    @interface Atomic { }
    static class Other {
        @Retention(RetentionPolicy.RUNTIME)
        @interface Atomic { }
    }
    /** It isn't in class files. */
    static class Source {
        @Retention(RetentionPolicy.SOURCE)
        @interface Atomic { }
    }
    @interface NonAtomic { }
    @interface AtomicToo { }

    @Atomic void pay() { helps(); }
    @Other.Atomic static void move() { }
    @Source.Atomic void inSource() { }
    @NonAtomic void isnt() { }
    @AtomicToo void isntToo() { }
    void helps() { }

    /** All its methods, but not what it inherits, or what is in a class within. */
    @Atomic static class Bank extends Named {
        int balance = 1;

        Bank() { }
        @Atomic Bank(int balance) { this.balance = balance; }
        void take() { one(() -> balance--).run(); }
        static Runnable one(Runnable it) { return it; }
        public void run() { new Within().in(); }
        static class Within {
            void in() { }
        }
    }

    public static void main(String[] words) {
        Named it = new Named();
        it.pay();
        move();
        it.inSource();
        it.isnt();
        it.isntToo();
        Bank bank = new Bank();
        new Bank(5).take();
        bank.run();
        bank.helps();
    }
}
