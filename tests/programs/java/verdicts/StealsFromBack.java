import java.util.concurrent.ConcurrentLinkedDeque;

// S: a worker takes two jobs from the front of its deque, and a thief takes one from the back between
public class StealsFromBack {
    private static final ConcurrentLinkedDeque<String> jobs = new ConcurrentLinkedDeque<>();

    static String takeTwo(Runnable between) {
        String first = jobs.pollFirst();
        between.run();
        return first + jobs.pollFirst();
    }

    static String steal() { return jobs.pollLast(); }

    static void giveAll(String... names) {
        for (String name : names) jobs.addLast(name);
    }

    public static void main(String[] words) {
        giveAll("a", "b", "c");
        Turns.run(() -> System.out.println(takeTwo(() -> {
            Turns.say("one");
            Turns.await("stolen");
        })), () -> {
            Turns.await("one");
            steal();
            giveAll("d");
            Turns.say("stolen");
        });
        System.out.println(jobs.size());
    }
}
