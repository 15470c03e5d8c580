// V: a guest waits at a gate within its block, and the gate is opened meanwhile; blames GateByWait$Gate.pass
public class GateByWait {
    static class Gate {
        private boolean open;
        private int passed;

        synchronized void pass() {
            while (!open) {
                Turns.say("closed");
                try {
                    wait(3_600_000);
                } catch (InterruptedException end) {
                    throw new IllegalStateException(end);
                }
            }
            passed++;
        }

        synchronized void open() {
            open = true;
            notifyAll();
        }
    }

    public static void main(String[] words) {
        Gate gate = new Gate();
        Turns.run(gate::pass, () -> {
            Turns.await("closed");
            gate.open();
        });
        System.out.println(gate.passed);
    }
}
