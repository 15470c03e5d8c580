// S: strings that are interned and small numbers as monitors: equal ones are one, others are others
public class InternedLocks {
    static int byText, byNumber;
    static void add(String name, Integer number) {
        synchronized (name.intern()) {
            byText++;
            synchronized (number) {
                byNumber++;
            }
        }
    }
    public static void main(String[] words) throws Exception {
        Meet.run(2, me -> {
            for (int one = 0; one < 20; one++) add(new String("lo") + "ck", Integer.valueOf(7));
        });
        System.out.println(byText + byNumber);
    }
}
