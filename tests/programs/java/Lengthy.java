/** The case puts many accesses in the place of LINES: the method is too long once they are logged. It makes the class Full too. */
public class Lengthy {
    static int count;
    int own;

    synchronized int lengthy() {
        own = 1;
        /* LINES */
        return own;
    }

    public static void main(String[] words) throws Exception {
        System.out.println(new Lengthy().lengthy() + " " + count);
        Class.forName("Full");
    }
}
