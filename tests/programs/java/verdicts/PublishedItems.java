import java.util.concurrent.CountDownLatch;
import java.util.concurrent.Flow;
import java.util.concurrent.SubmissionPublisher;

// S: a publisher gives items to two subscribers, each of which has its own state
public class PublishedItems {
    static class Kept implements Flow.Subscriber<Integer> {
        int sum;
        final CountDownLatch done = new CountDownLatch(1);
        Flow.Subscription from;
        @Override public void onSubscribe(Flow.Subscription from) {
            this.from = from;
            from.request(1);
        }
        @Override public void onNext(Integer item) {
            sum += item;
            from.request(1);
        }
        @Override public void onError(Throwable wrong) { done.countDown(); }
        @Override public void onComplete() { done.countDown(); }
    }
    public static void main(String[] words) throws Exception {
        Kept[] all = {new Kept(), new Kept()};
        try (SubmissionPublisher<Integer> publisher = new SubmissionPublisher<>()) {
            for (Kept one : all) publisher.subscribe(one);
            for (int one = 0; one < 20; one++) publisher.submit(one);
        }
        for (Kept one : all) one.done.await();
        System.out.println(all[0].sum + all[1].sum);
    }
}
