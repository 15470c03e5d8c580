/** Threads that do nothing but access fields and elements, nine times a round: Accesses THREADS ROUNDS. Says how many there were. */
public class Accesses {
    private static int mixed;
    private int sum;
    private volatile int seen;
    private final int[] fixed = new int[64];
    private int[] elements = fixed;

    private void work(int rounds) {
        int all = 0;
        for (int round = 0; round < rounds; round++) {
            sum += round;
            elements[round & 63] += sum;
            all += seen;
            mixed ^= all;
        }
    }

    public static void main(String[] words) throws Exception {
        int rounds = Integer.parseInt(words[1]);
        Threads.run(Integer.parseInt(words[0]), me -> new Accesses().work(rounds));
        System.out.println("accesses " + 9L * rounds * Integer.parseInt(words[0]));
    }
}
