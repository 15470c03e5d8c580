// S: two threads note which code was run, as JaCoCo has methods do it, in an array that isn't the program's
public class Probes {
    private static boolean[] $jacocoData;
    private static boolean[] $jacocoInit() {
        if ($jacocoData == null) $jacocoData = new boolean[3];
        return $jacocoData;
    }
    static int work(int number) {
        boolean[] probes = $jacocoInit();
        int[] own = new int[2];
        probes[0] = true;
        own[1] = number;
        Turns.say("in" + number);
        Turns.await("in" + (1 - number));
        probes[1] = true;
        Turns.say("out" + number);
        Turns.await("out" + (1 - number));
        $jacocoInit()[0] = true;
        probes[1] = true;
        return own[1];
    }
    public static void main(String[] words) {
        Turns.run(() -> work(0), () -> work(1));
        System.out.println("ok");
    }
}
