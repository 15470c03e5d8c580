// V: a song is interrupted by a jump to another one, and the number after the old song is stored; blames Jukebox.playNext
public class Jukebox {
    private final String[] songs = {"Alpha", "Beta", "Gamma", "Delta"};
    private volatile int next;
    private volatile boolean playing;

    void playNext() {
        int number = next;
        playing = true;
        System.out.println("plays " + songs[number]);
        Turns.say("plays");
        try {
            Thread.sleep(3_600_000);
        } catch (InterruptedException skipped) {
            System.out.println("skipped");
        }
        playing = false;
        next = (number + 1) % songs.length;
    }

    void jump(int number, Thread player) {
        next = number;
        player.interrupt();
    }

    public static void main(String[] words) throws Exception {
        Jukebox box = new Jukebox();
        Thread player = new Thread(box::playNext);
        player.start();
        Turns.await("plays");
        Thread guest = new Thread(() -> box.jump(3, player));
        guest.start();
        guest.join();
        player.join();
        System.out.println("next is " + box.songs[box.next]);
    }
}
