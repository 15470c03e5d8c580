/** A withdrawal that holds the lock throughout, or apart: to read, and to write. */
public class Accounts {
    static class Account {
        int balance = 100;

        synchronized int get() { return balance; }
        synchronized void set(int value) { balance = value; }
        synchronized void withdraw(int amount) { balance = balance - amount; }
        void withdrawApart(int amount) {
            int before = get();
            Meet.both();
            set(before - amount);
        }
    }

    public static void main(String[] words) throws Exception {
        Account account = new Account();
        Meet.run(2, me -> {
            if (words[0].equals("atomic")) account.withdraw(20);
            else account.withdrawApart(20);
        });
        System.out.println(account.balance);
    }
}
