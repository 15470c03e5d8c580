/** Static synchronized methods, and a wait on the class. Adding is one of them, or apart: two. */
public class Statics {
    static int count;

    static synchronized int get() { return count; }
    static synchronized void set(int value) { count = value; }
    static synchronized void add() {
        int before = count;
        Statics.class.notifyAll();
        count = before + 1;
    }
    static void addApart() {
        int before = get();
        Meet.both();
        set(before + 1);
    }
    static synchronized void awaits(int wanted) throws InterruptedException {
        while (count < wanted) Statics.class.wait();
    }

    public static void main(String[] words) throws Exception {
        boolean isAtomic = words[0].equals("atomic");
        Meet.run(2, me -> {
            for (int one = 0; one < 5; one++) {
                if (isAtomic) add();
                else addApart();
            }
            if (isAtomic) awaits(6);
        });
        System.out.println(get());
    }
}
