/**
 * Ways to end a program within a block, by its argument. A hook of the program's runs meanwhile, and has a block of its own that reads
 * what the ending block has written: so that block has to be over.
 */
public class Hooked {
    static int count, last;
    static boolean isHalting;

    static void note() {
        last = count;
        if (isHalting) Runtime.getRuntime().halt(5);
    }

    static void outer() { inner(); }
    static synchronized void inner() {
        count++;
        System.exit(3);
    }
    static void byRuntime() {
        count++;
        Runtime.getRuntime().exit(3);
    }
    static void halts() {
        count++;
        Runtime.getRuntime().halt(4);
    }
    static void fails() {
        count++;
        throw new IllegalStateException();
    }
    static void handles(Thread thread, Throwable thrown) {
        count++;
        System.exit(3);
    }

    public static void main(String[] words) throws Exception {
        isHalting = words[0].equals("halting-hook");
        Runtime.getRuntime().addShutdownHook(new Thread(Hooked::note));
        switch (words[0]) {
            case "runtime": byRuntime(); break;
            case "halt": halts(); break;
            case "uncaught":
                Thread.setDefaultUncaughtExceptionHandler(Hooked::handles);
                fails();
                break;
            case "thread":
                Thread thread = new Thread(Hooked::outer);
                thread.start();
                thread.join();
                break;
            default: outer();
        }
    }
}
