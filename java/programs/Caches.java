import com.google.common.cache.CacheBuilder;
import com.google.common.cache.CacheLoader;
import com.google.common.cache.LoadingCache;

/** Threads that share a cache of Guava's: Caches THREADS ROUNDS. Says how many values were asked for, and how many came right. */
public class Caches {
    public static void main(String[] words) throws Exception {
        int rounds = Integer.parseInt(words[1]);
        int[] right = new int[Integer.parseInt(words[0])];
        LoadingCache<Integer, String> cache = CacheBuilder.newBuilder().maximumSize(10).recordStats()
                .build(CacheLoader.from(key -> "value " + key));
        Threads.run(right.length, me -> {
            for (int round = 0; round < rounds; round++) {
                int key = round * (me + 1) % 16;
                if (cache.getUnchecked(key).equals("value " + key)) right[me]++;
                if (round % 9 == 8) cache.invalidate(3);
                if (round % 20 == 19) cache.cleanUp();
            }
        });
        int sum = 0;
        for (int one : right) sum += one;
        System.out.println("asked " + cache.stats().requestCount() + ", right " + sum);
    }
}
