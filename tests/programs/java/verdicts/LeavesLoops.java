// S: loops are left within synchronized blocks in many ways, each block is one hold of one lock, and the next one comes after another thread
public class LeavesLoops {
    private final Object lock = new Object();
    private int sum;

    int leave(String how) {
        int steps = 0;
        outer:
        for (int one = 0; one < 3; one++) {
            synchronized (lock) {
                for (;;) {
                    steps++;
                    sum += steps;
                    switch (how) {
                        case "return":
                            return steps;
                        case "break":
                            break outer;
                        case "throw":
                            throw new IllegalStateException(how);
                        default:
                            break;
                    }
                    try {
                        if (steps < 3) continue;
                        return -1;
                    } finally {
                        if (steps == 3) sum--;
                    }
                }
            }
        }
        return steps;
    }

    void tryToLeave(String how) {
        try {
            leave(how);
        } catch (IllegalStateException thrown) {
            if (!thrown.getMessage().equals(how)) throw thrown;
        }
    }

    public static void main(String[] words) {
        LeavesLoops it = new LeavesLoops();
        String[] ways = {"return", "break", "throw", "finally"};
        Turns.run(() -> {
            for (String how : ways) {
                it.tryToLeave(how);
                Turns.say("left by " + how);
                Turns.await("after " + how);
            }
        }, () -> {
            for (String how : ways) {
                Turns.await("left by " + how);
                it.tryToLeave(how);
                Turns.say("after " + how);
            }
        });
        System.out.println(it.sum);
    }
}
