import java.util.concurrent.ArrayBlockingQueue;
import java.util.concurrent.BlockingQueue;
import java.util.concurrent.atomic.AtomicInteger;

// V: two borrowers look at the number of connections before either of them counts its own; blames PoolOfConnections.borrow
public class PoolOfConnections {
    static class Connection {
        final int number;
        Connection(int number) { this.number = number; }
    }

    private static final int MOST = 1;
    private final BlockingQueue<Connection> idle = new ArrayBlockingQueue<>(MOST + 1);
    private final AtomicInteger opened = new AtomicInteger();

    Connection borrow(Runnable connecting) {
        Connection one = idle.poll();
        if (one != null) return one;
        if (opened.get() >= MOST) throw new IllegalStateException("all connections are lent");
        connecting.run();
        return new Connection(opened.incrementAndGet());
    }

    void giveBack(Connection one) {
        if (!idle.offer(one)) System.out.println("too many connections");
    }

    public static void main(String[] words) {
        PoolOfConnections pool = new PoolOfConnections();
        Turns.run(() -> {
            Connection mine = pool.borrow(() -> {
                Turns.say("looked");
                Turns.await("lent");
            });
            pool.giveBack(mine);
        }, () -> {
            Turns.await("looked");
            Connection mine = pool.borrow(() -> { });
            Turns.say("lent");
            pool.giveBack(mine);
        });
        System.out.println("opened " + pool.opened.get());
    }
}
