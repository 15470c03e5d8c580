// S: each thread has a copy of its own, also of what its parent had
public class OwnCopies {
    static final ThreadLocal<int[]> own = ThreadLocal.withInitial(() -> new int[1]);
    static final InheritableThreadLocal<int[]> given = new InheritableThreadLocal<>() {
        @Override protected int[] childValue(int[] of) { return of.clone(); }
    };
    static int add() {
        own.get()[0]++;
        given.get()[0]++;
        Thread.yield();
        own.get()[0]++;
        return given.get()[0]++ + own.get()[0];
    }
    public static void main(String[] words) throws Exception {
        given.set(new int[] {5});
        Meet.run(3, me -> {
            for (int one = 0; one < 20; one++) add();
        });
        System.out.println(given.get()[0]);
    }
}
