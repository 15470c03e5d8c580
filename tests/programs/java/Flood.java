/** Writes a log of more than 2^30 bytes in few calls: its names are long. */
public class Flood {
    static class NameThatIsLongSoThatEachLineOfTheLogIsLongTooAndFewCallsFillTheLog { }
    static int last;

    public static void main(String[] words) {
        Object[] from = new NameThatIsLongSoThatEachLineOfTheLogIsLongTooAndFewCallsFillTheLog[100_000];
        Object[] to = from.clone();
        for (int time = 0; time < 60; time++) System.arraycopy(from, 0, to, 0, from.length);
        last = 1;
    }
}
