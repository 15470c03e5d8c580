// V: a method clones an array twice, and another thread writes an element in between
public class ClonedArray {
    static int[] all = {1, 2};
    static int twice() {
        int[] one = all.clone();
        Turns.say("one");
        Turns.await("put");
        int[] two = all.clone();
        return one[0] + two[0];
    }
    static void put() {
        all[0] = 5;
    }
    public static void main(String[] x) {
        Turns.run(ClonedArray::twice, () -> {
            Turns.await("one");
            put();
            Turns.say("put");
        });
    }
}
