import java.util.Queue;
import java.util.concurrent.ConcurrentHashMap;
import java.util.concurrent.ConcurrentLinkedQueue;

// S: a page is loaded by one computeIfAbsent, which keeps a second reader of the page waiting, but no reader of another page
public class PagesLoaded {
    private final ConcurrentHashMap<Integer, String> pages = new ConcurrentHashMap<>();
    private final Queue<String> loads = new ConcurrentLinkedQueue<>();

    private String load(int number) {
        if (number == 7) {
            Turns.say("loads 7");
            Turns.await("has loaded 2000");
        }
        loads.add("load " + number);
        return "page " + number;
    }

    String page(int number) { return pages.computeIfAbsent(number, this::load); }

    String titleOf(int number) {
        String text = page(number);
        return text.substring(0, text.indexOf(' '));
    }

    void forget(int number) { pages.remove(number); }

    public static void main(String[] words) {
        PagesLoaded cache = new PagesLoaded();
        Turns.run(() -> {
            cache.titleOf(7);
            cache.titleOf(2000);
        }, () -> {
            Turns.await("loads 7");
            cache.titleOf(2000);
            Turns.say("has loaded 2000");
            cache.titleOf(7);
            cache.forget(2000);
        });
        System.out.println(cache.loads.size() >= 2 ? "loaded" : "not loaded");
    }
}
