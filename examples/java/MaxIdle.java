import java.util.concurrent.CyclicBarrier;
import org.apache.commons.pool2.BasePooledObjectFactory;
import org.apache.commons.pool2.PooledObject;
import org.apache.commons.pool2.impl.DefaultPooledObject;
import org.apache.commons.pool2.impl.GenericObjectPool;
import org.apache.commons.pool2.impl.GenericObjectPoolConfig;

/**
 * Whether a pool of commons-pool2 2.11 holds more idle objects than its maxIdle: GenericObjectPool.returnObject looks at the number of
 * idle objects, and then adds one.
 *
 *   java -cp .:commons-pool2.jar MaxIdle ROUNDS
 */
public class MaxIdle {
    static final int THREADS = 4, MOST = 1;

    static class Factory extends BasePooledObjectFactory<Object> {
        @Override public Object create() { return new Object(); }
        @Override public PooledObject<Object> wrap(Object made) { return new DefaultPooledObject<>(made); }
    }

    /** How many objects are idle once each thread has borrowed one and all have given theirs back. */
    static int idle(GenericObjectPoolConfig<Object> config) throws Exception {
        GenericObjectPool<Object> pool = new GenericObjectPool<>(new Factory(), config);
        CyclicBarrier borrowed = new CyclicBarrier(THREADS);
        Thread[] threads = new Thread[THREADS];
        for (int one = 0; one < THREADS; one++) {
            threads[one] = new Thread(() -> {
                try {
                    Object object = pool.borrowObject();
                    borrowed.await();
                    pool.returnObject(object);
                } catch (Exception impossible) {
                    throw new AssertionError(impossible);
                }
            });
            threads[one].start();
        }
        for (Thread one : threads) one.join();
        int idle = pool.getNumIdle();
        pool.close();
        return idle;
    }

    public static void main(String[] words) throws Exception {
        GenericObjectPoolConfig<Object> config = new GenericObjectPoolConfig<>();
        config.setMaxTotal(THREADS);
        config.setMaxIdle(MOST);
        config.setJmxEnabled(false);
        int rounds = Integer.parseInt(words[0]), over = 0;
        for (int round = 0; round < rounds; round++) if (idle(config) > MOST) over++;
        System.out.println(over + " of " + rounds + " rounds have more idle objects than " + MOST);
    }
}
