import java.util.ArrayList;
import java.util.List;
import java.util.concurrent.BrokenBarrierException;
import java.util.concurrent.CyclicBarrier;

// V: the watchers get two changes in different orders; blames ChangesToWatchers$Subject.publish
public class ChangesToWatchers {
    interface Watcher {
        void changed(int value);
    }

    static class Display implements Watcher {
        private volatile int shown;
        @Override public void changed(int value) { shown = value; }
    }

    static class SlowDisplay extends Display {
        @Override public void changed(int value) {
            super.changed(value);
            if (value != 1) return;
            Turns.say("one watcher has 1");
            Turns.await("all have 2");
        }
    }

    static class Subject {
        private final List<Watcher> watchers = new ArrayList<>();

        void add(Watcher one) { watchers.add(one); }

        void publish(int value) {
            for (Watcher one : watchers) one.changed(value);
        }
    }

    static class Publisher implements Runnable {
        private final CyclicBarrier start;
        private final Subject subject;
        private final int value;

        Publisher(CyclicBarrier start, Subject subject, int value) {
            this.start = start;
            this.subject = subject;
            this.value = value;
        }

        @Override public void run() {
            try {
                start.await();
            } catch (InterruptedException | BrokenBarrierException end) {
                throw new IllegalStateException(end);
            }
            if (value == 2) Turns.await("one watcher has 1");
            subject.publish(value);
            if (value == 2) Turns.say("all have 2");
        }
    }

    public static void main(String[] words) {
        Subject subject = new Subject();
        Display hall = new SlowDisplay(), roof = new Display();
        subject.add(hall);
        subject.add(roof);
        CyclicBarrier start = new CyclicBarrier(2);
        Turns.run(new Publisher(start, subject, 1), new Publisher(start, subject, 2));
        System.out.println("hall " + hall.shown + ", roof " + roof.shown);
    }
}
