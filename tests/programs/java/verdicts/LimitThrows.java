// S: an exception leaves the block of a refused call, and so ends it before the calls are refilled and the next call is made
public class LimitThrows {
    static class Exceeded extends RuntimeException {
        Exceeded(int most) { super("more than " + most + " calls"); }
    }

    interface Limit {
        void acquire();

        default boolean tryAcquire() {
            try {
                acquire();
                return true;
            } catch (Exceeded refused) {
                return false;
            }
        }
    }

    static class Calls implements Limit {
        private final int most;
        private int left;
        private int refused;

        Calls(int most) {
            this.most = most;
            left = most;
        }

        @Override public synchronized void acquire() {
            if (left == 0) {
                refused++;
                throw new Exceeded(most);
            }
            left--;
        }

        synchronized void refill() { left = most; }
    }

    public static void main(String[] words) {
        Calls calls = new Calls(2);
        Turns.run(() -> {
            for (int one = 0; one < 3; one++) {
                try {
                    calls.acquire();
                } catch (Exceeded full) {
                    System.out.println(full.getMessage());
                    Turns.say("exceeded");
                    Turns.await("refilled");
                }
            }
            System.out.println(calls.tryAcquire() + " " + calls.tryAcquire() + " " + calls.tryAcquire());
        }, () -> {
            Turns.await("exceeded");
            calls.refill();
            Turns.say("refilled");
        });
    }
}
