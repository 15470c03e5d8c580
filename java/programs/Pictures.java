import java.io.ByteArrayOutputStream;
import java.io.StringReader;
import org.apache.batik.transcoder.TranscoderInput;
import org.apache.batik.transcoder.TranscoderOutput;
import org.apache.batik.transcoder.image.PNGTranscoder;

/** Threads that draw a picture by Batik: Pictures THREADS ROUNDS. Says how many bytes were made. */
public class Pictures {
    private static final String PICTURE = "<svg xmlns='http://www.w3.org/2000/svg' width='20' height='20'><defs>"
            + "<linearGradient id='g'><stop offset='0' stop-color='red'/><stop offset='1' stop-color='blue'/></linearGradient></defs>"
            + "<style>rect{fill:url(#g)}</style><rect x='2' y='2' width='16' height='16' rx='3'/>"
            + "<circle cx='10' cy='10' r='4' fill='green' opacity='.5'/></svg>";

    public static void main(String[] words) throws Exception {
        int rounds = Integer.parseInt(words[1]);
        int[] made = new int[Integer.parseInt(words[0])];
        Threads.run(made.length, me -> {
            for (int round = 0; round < rounds; round++) {
                ByteArrayOutputStream bytes = new ByteArrayOutputStream();
                new PNGTranscoder().transcode(new TranscoderInput(new StringReader(PICTURE)), new TranscoderOutput(bytes));
                made[me] += bytes.size();
            }
        });
        int sum = 0;
        for (int one : made) sum += one;
        System.out.println("bytes " + sum);
    }
}
