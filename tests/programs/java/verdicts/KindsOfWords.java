import java.util.EnumMap;
import java.util.Map;

// S: each counter counts for itself, and adds to the totals of the object around it under one lock
public class KindsOfWords {
    enum Kind { SHORT, LONG, NUMBER }

    private final EnumMap<Kind, Integer> totals = new EnumMap<>(Kind.class);
    private int[] lengths = new int[3];

    class Counter {
        private final EnumMap<Kind, Integer> counts = new EnumMap<>(Kind.class);

        Kind kindOf(String word) {
            if (Character.isDigit(word.charAt(0))) return Kind.NUMBER;
            return word.length() < 5 ? Kind.SHORT : Kind.LONG;
        }

        void count(String text, String says, String waitsFor) {
            int length = 0;
            for (String word : text.split(" ")) {
                counts.merge(kindOf(word), 1, Integer::sum);
                switch (kindOf(word)) {
                    case NUMBER -> length += 10;
                    case SHORT, LONG -> length += word.length();
                }
            }
            Turns.say(says);
            Turns.await(waitsFor);
            synchronized (KindsOfWords.this) {
                for (Map.Entry<Kind, Integer> one : counts.entrySet()) {
                    totals.merge(one.getKey(), one.getValue(), Integer::sum);
                    lengths[one.getKey().ordinal()] += length;
                }
            }
        }
    }

    public static void main(String[] words) {
        KindsOfWords all = new KindsOfWords();
        Turns.run(
            () -> all.new Counter().count("a table of 12 entries", "first", "second"),
            () -> all.new Counter().count("one word in 7 sentences", "second", "first"));
        System.out.println(all.totals + " " + all.lengths[0]);
    }
}
