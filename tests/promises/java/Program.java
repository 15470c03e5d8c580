import java.nio.file.Files;
import java.nio.file.Paths;
import java.util.ArrayList;
import java.util.List;
import java.util.concurrent.locks.ReentrantLock;
import java.util.concurrent.locks.StampedLock;

/** Does by the same words what ../c/program.c does. */
public class Program {
    static long paid;
    static final ReentrantLock LOCK = new ReentrantLock();
    static final StampedLock HANDED = new StampedLock();

    static void pay() { paid++; }
    static void unused() { paid--; }
    static void name_of_thirty_bytes_exactly__name_of_thirty_bytes_exactly__name_of_thirty_bytes_exactly__name_of_thirty_bytes_exactly__name_of_thirty_bytes_exactly__name_of_thirty_bytes_exactly__name_of_thirty_bytes_exactly__name_of_thirty_bytes_exactly__name_of_thirty_bytes_exactly__name_of_thirty_bytes_exactly__() { paid++; }

    static void times(int count) {
        while (count-- > 0) pay();
    }
    static void always() throws Exception {
        for (long count = 1;; count++) {
            pay();
            if (count % 1000 == 0) Files.writeString(Paths.get("paid"), count + "\n");
        }
    }
    static void pays() {
        for (int turn = 0; turn < 100; turn++) {
            LOCK.lock();
            pay();
            LOCK.unlock();
        }
    }
    static void threads() throws Exception {
        Thread[] threads = new Thread[4];
        for (int one = 0; one < 4; one++) (threads[one] = new Thread(Program::pays)).start();
        for (Thread one : threads) one.join();
    }
    static void handed() throws Exception {
        long stamp = HANDED.writeLock();
        Thread thread = new Thread(() -> {
            pay();
            HANDED.unlockWrite(stamp);
            long own = HANDED.writeLock();
            pay();
            HANDED.unlockWrite(own);
        });
        thread.start();
        thread.join();
        long again = HANDED.writeLock();
        pay();
        HANDED.unlockWrite(again);
    }
    static void leave(boolean byFault) {
        times(5);
        if (byFault) throw new IllegalStateException("a fault");
        System.exit(7);
    }
    static void child(String java) throws Exception {
        times(3);
        List<String> words = new ArrayList<>(List.of(java.split(" ")));
        words.addAll(List.of("pay", "3"));
        if (new ProcessBuilder(words).inheritIO().start().waitFor() != 0) System.exit(9);
        times(3);
    }

    public static void main(String[] word) throws Exception {
        if (word.length == 0) return;
        switch (word[0]) {
            case "pay": times(Integer.parseInt(word[1])); break;
            case "wait":
                times(3);
                System.out.println("ready");
                Thread.sleep(1000000);
                break;
            case "always": always(); break;
            case "exit": leave(false); break;
            case "abort": leave(true); break;
            case "threads": threads(); break;
            case "handed": handed(); break;
            case "long": name_of_thirty_bytes_exactly__name_of_thirty_bytes_exactly__name_of_thirty_bytes_exactly__name_of_thirty_bytes_exactly__name_of_thirty_bytes_exactly__name_of_thirty_bytes_exactly__name_of_thirty_bytes_exactly__name_of_thirty_bytes_exactly__name_of_thirty_bytes_exactly__name_of_thirty_bytes_exactly__(); break;
            case "child": child(System.getenv("PROGRAM")); break;
            default: System.exit(8);
        }
    }
}
