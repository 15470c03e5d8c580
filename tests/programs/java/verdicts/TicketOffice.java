import java.util.ArrayList;
import java.util.List;
import java.util.concurrent.locks.Condition;
import java.util.concurrent.locks.ReentrantLock;

// V: a buyer finds no ticket, and waits within its block until another thread prints one; blames TicketOffice.buy
public class TicketOffice {
    record Ticket(int number, String event) { }

    private final ReentrantLock lock = new ReentrantLock();
    private final Condition printed = lock.newCondition();
    private final List<Ticket> tickets = new ArrayList<>();

    Ticket buy() throws InterruptedException {
        lock.lock();
        try {
            while (tickets.isEmpty()) {
                Turns.say("none left");
                printed.await();
            }
            return tickets.remove(0);
        } finally {
            lock.unlock();
        }
    }

    void print(int number) {
        lock.lock();
        try {
            tickets.add(new Ticket(number, "concert"));
            printed.signalAll();
        } finally {
            lock.unlock();
        }
    }

    public static void main(String[] words) {
        TicketOffice office = new TicketOffice();
        Turns.run(() -> {
            try {
                System.out.println(office.buy());
            } catch (InterruptedException end) {
                throw new IllegalStateException(end);
            }
        }, () -> {
            Turns.await("none left");
            office.print(7);
        });
    }
}
