// V: a method adds a column of a table while another thread adds to its last row
public class ColumnsOfTable {
    static final int[][] TABLE = {{1, 2}, {3, 4}, {5, 6}};
    static int sum(int column) {
        int sum = 0;
        for (int[] row : TABLE) {
            sum += row[column];
            if (row == TABLE[0]) {
                Turns.say("first");
                Turns.await("moved");
            }
        }
        return sum;
    }
    static void move(int column) {
        TABLE[0][column]--;
        TABLE[2][column]++;
    }
    public static void main(String[] words) {
        Turns.run(() -> System.out.println(sum(1)), () -> {
            Turns.await("first");
            move(1);
            Turns.say("moved");
        });
    }
}
