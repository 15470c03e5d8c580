// V: a method that an interface has calls two that lock, and another thread comes between
public class DefaultMethod {
    interface Account {
        int money();
        void set(int money);
        default void pay(int amount) {
            int before = money();
            Turns.say("seen");
            Turns.await("paid");
            set(before + amount);
        }
    }
    static class Own implements Account {
        private int money;
        @Override public synchronized int money() { return money; }
        @Override public synchronized void set(int money) { this.money = money; }
    }
    public static void main(String[] words) {
        Account account = new Own();
        Turns.run(() -> account.pay(1), () -> {
            Turns.await("seen");
            account.set(5);
            Turns.say("paid");
        });
    }
}
