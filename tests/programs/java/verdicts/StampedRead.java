import java.util.concurrent.locks.*;
// S: a point under a StampedLock, readers by readLock: each block is one critical section
public class StampedRead {
    final StampedLock l = new StampedLock();
    int x, y;
    static volatile int bad;
    void move() {
        long s = l.writeLock();
        try {
            x++;
            y++;
        } finally {
            l.unlockWrite(s);
        }
    }
    int read() {
        long s = l.readLock();
        try {
            return x - y;
        } finally {
            l.unlockRead(s);
        }
    }
    public static void main(String[] a) {
        StampedRead o = new StampedRead();
        int N = 500;
        Runnable w = () -> {
            for (int i = 0; i < N; i++) o.move();
        }, r = () -> {
            for (int i = 0; i < N; i++) if (o.read() != 0) Turns.say("bad");
        };
        Turns.run(w, r, r);
        System.out.println(o.x == o.y);
    }
}
