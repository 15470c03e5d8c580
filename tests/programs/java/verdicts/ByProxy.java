import java.lang.reflect.Proxy;

// S: a lock around each call that a proxy passes on
public class ByProxy {
    interface Account {
        void pay(int amount);
        int balance();
    }
    static class Plain implements Account {
        int balance;
        @Override public void pay(int amount) { balance += amount; }
        @Override public int balance() { return balance; }
    }
    static Account locked(Account inner) {
        return (Account) Proxy.newProxyInstance(ByProxy.class.getClassLoader(), new Class<?>[] {Account.class}, (proxy, method, words) -> {
            synchronized (inner) {
                return method.invoke(inner, words);
            }
        });
    }
    static final Account ACCOUNT = locked(new Plain());
    static void run() {
        for (int one = 0; one < 40; one++) {
            ACCOUNT.pay(one);
            ACCOUNT.balance();
        }
    }
    public static void main(String[] words) {
        Turns.run(ByProxy::run, ByProxy::run);
        System.out.println(ACCOUNT.balance());
    }
}
