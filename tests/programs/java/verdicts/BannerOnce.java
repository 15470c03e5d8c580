import java.util.Arrays;

// V: two threads find no banner, and both build it; blames BannerOnce.banner
public class BannerOnce {
    private static final String[] lines = {"Welcome", "to the machine", "of the day"};
    private static volatile String banner;

    static String build() {
        StringBuilder text = new StringBuilder();
        char[] border = new char[16];
        Arrays.fill(border, '*');
        for (String line : lines) text.append(border).append(' ').append(line).append('\n');
        return text.toString();
    }

    static String banner() {
        if (banner == null) {
            if (Thread.currentThread().getName().equals("slow")) {
                Turns.say("none yet");
                Turns.await("built");
            }
            banner = build();
        }
        return banner;
    }

    public static void main(String[] words) throws Exception {
        Thread slow = new Thread(BannerOnce::banner, "slow");
        Thread fast = new Thread(() -> {
            Turns.await("none yet");
            System.out.print(banner());
            Turns.say("built");
        });
        slow.start();
        fast.start();
        slow.join();
        fast.join();
    }
}
