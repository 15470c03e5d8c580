import java.util.List;
import java.util.concurrent.Callable;
import java.util.concurrent.CompletableFuture;
import java.util.concurrent.CompletionException;
import java.util.concurrent.ExecutionException;
import java.util.concurrent.ExecutorService;
import java.util.concurrent.Executor;
import java.util.concurrent.Executors;
import java.util.concurrent.ForkJoinPool;
import java.util.concurrent.FutureTask;
import java.util.concurrent.RecursiveAction;
import java.util.concurrent.RecursiveTask;
import java.util.concurrent.ScheduledExecutorService;
import java.util.concurrent.TimeUnit;

/**
 * Each way in which a task or a result goes to another thread, once. Before it main writes `step` at a line whose comment has what is
 * logged until the next one: g where main gives the task, b where another thread begins it, e where that ends it, s where main sees
 * its result. Small letters are main's, capitals those of another thread.
 */
public class Given {
    static int step;

    static final class Failing implements Callable<Object> {
        @Override public Object call() { throw new IllegalStateException(); }
    }
    /** Fails in its thread. */
    static void sees(Callable<?> result) throws Exception {
        try {
            result.call();
        } catch (ExecutionException | CompletionException | IllegalStateException wanted) {
            // It is seen.
        }
    }
    static final class Sum extends RecursiveTask<Integer> {
        private static final long serialVersionUID = 1;
        @Override protected Integer compute() { return 3; }
    }
    static final class Nothing extends RecursiveAction {
        private static final long serialVersionUID = 1;
        @Override protected void compute() { }
    }

    static void pools() throws Exception {
        ExecutorService pool = Executors.newSingleThreadExecutor();
        step = 1; //: gB
        pool.execute(Meet::done);
        Meet.untilDone();
        step = 2; //: gBEs
        pool.submit(() -> 1).get();
        step = 3; //: gBEs
        sees(() -> pool.submit(new Failing()).get());
        pool.shutdown();
        ScheduledExecutorService timed = Executors.newSingleThreadScheduledExecutor();
        step = 4; //: gBEs
        timed.schedule(() -> 1, 1, TimeUnit.MILLISECONDS).get();
        timed.shutdown();
    }

    static void forks() throws Exception {
        ForkJoinPool pool = new ForkJoinPool(1);
        step = 5; //: gBEs
        pool.submit(new Sum()).get();
        step = 6; //: gBEs
        pool.submit(new Sum()).join();
        step = 7; //: gBEs
        pool.invoke(new Sum());
        step = 8; //: gBE
        Meet.answer(0);
        pool.execute((Runnable) Meet::done);
        Meet.untilDone();
        pool.awaitQuiescence(20, TimeUnit.SECONDS);
        // A task in the thread that calls it.
        step = 9; //: bes
        new Sum().invoke();
        // In the worker: it forks a task, and takes it back.
        step = 10; //: gBGBESEs
        pool.submit(() -> new Sum().fork().join()).get();
        step = 11; //: gBGBESEs
        pool.submit(() -> pool.submit(new Sum()).join()).get();
        pool.shutdown();
    }

    static void futures() throws Exception {
        CompletableFuture<Object> first = new CompletableFuture<>();
        step = 12; //: es
        first.complete("a");
        first.get();
        CompletableFuture<Object> second = new CompletableFuture<>();
        step = 13; //: es
        second.completeExceptionally(new IllegalStateException());
        sees(second::join);
        Executor pool = Executors.newSingleThreadExecutor();
        step = 14; //: gBEs
        CompletableFuture.supplyAsync(() -> 1, pool).join();
        step = 15; //: gBEs
        CompletableFuture.runAsync(() -> { }, pool).get();
        step = 16; //: gBEs
        sees(() -> CompletableFuture.supplyAsync(() -> new Failing().call(), pool).join());
        step = 17; //: es
        CompletableFuture<Object> third = new CompletableFuture<>();
        third.complete("b");
        third.getNow(null);
        ((ExecutorService) pool).shutdown();
        step = 18; //: es
        CompletableFuture<Object> fourth = new CompletableFuture<>();
        fourth.complete("c");
        if (fourth.cancel(true)) throw new Error();
        step = 19; //: es
        FutureTask<Object> task = new FutureTask<>(() -> 1);
        task.run();
        if (task.cancel(true)) throw new Error();
        step = 20; //: es
        CompletableFuture<Object> fifth = new CompletableFuture<>();
        fifth.complete("d");
        fifth.thenAccept(given -> { });
        ExecutorService several = Executors.newSingleThreadExecutor();
        step = 21; //: gBEs
        several.invokeAll(List.<Callable<Integer>>of(() -> 1));
        several.shutdown();
        step = 22; //:
    }

    public static void main(String[] words) throws Exception {
        pools();
        forks();
        futures();
    }
}
