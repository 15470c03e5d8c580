// S: two threads each fill and sum their own row of a table
public class RowsOfTable {
    static final long[][] TABLE = new long[2][50];
    static long fill(int row) {
        for (int place = 0; place < TABLE[row].length; place++) TABLE[row][place] += place;
        Turns.say("row " + row);
        Turns.await("row " + (1 - row));
        long sum = 0;
        for (long one : TABLE[row]) sum += one;
        return sum;
    }
    public static void main(String[] words) {
        Turns.run(() -> System.out.println(fill(0)), () -> System.out.println(fill(1)));
    }
}
