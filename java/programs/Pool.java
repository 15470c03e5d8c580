import org.apache.commons.pool2.BasePooledObjectFactory;
import org.apache.commons.pool2.PooledObject;
import org.apache.commons.pool2.impl.DefaultPooledObject;
import org.apache.commons.pool2.impl.GenericObjectPool;

/** Threads that borrow objects of a pool and give them back: Pool THREADS ROUNDS. Says how many are in use at the end. */
public class Pool {
    static class Factory extends BasePooledObjectFactory<StringBuilder> {
        @Override public StringBuilder create() { return new StringBuilder(); }
        @Override public PooledObject<StringBuilder> wrap(StringBuilder made) { return new DefaultPooledObject<>(made); }
        @Override public void passivateObject(PooledObject<StringBuilder> given) { given.getObject().setLength(0); }
    }

    public static void main(String[] words) throws Exception {
        int rounds = Integer.parseInt(words[1]);
        GenericObjectPool<StringBuilder> pool = new GenericObjectPool<>(new Factory());
        pool.setMaxTotal(3);
        Threads.run(Integer.parseInt(words[0]), me -> {
            for (int round = 0; round < rounds; round++) {
                StringBuilder borrowed = pool.borrowObject();
                borrowed.append(round);
                if (round % 7 == 6) pool.invalidateObject(borrowed);
                else pool.returnObject(borrowed);
            }
        });
        System.out.println("in use " + pool.getNumActive());
        pool.close();
    }
}
