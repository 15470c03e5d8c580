import java.util.concurrent.CompletableFuture;

// V: another thread replaces the result of a future between two looks at it
public class ObtrudedBetween {
    private final CompletableFuture<Integer> future = new CompletableFuture<>();

    int getTwice() throws Exception {
        int before = future.get();
        Meet.both();
        Meet.both();
        return future.get() - before;
    }
    void replace() { future.obtrudeValue(2); }

    public static void main(String[] words) throws Exception {
        ObtrudedBetween it = new ObtrudedBetween();
        it.future.complete(1);
        Meet.run(2, me -> {
            if (me == 0) it.getTwice();
            else {
                Meet.both();
                it.replace();
                Meet.both();
            }
        });
    }
}
