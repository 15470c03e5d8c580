import java.util.concurrent.Exchanger;

// V: two blocks that exchange objects each come before the other
public class ExchangedInBlocks {
    static final Exchanger<Integer> exchanger = new Exchanger<>();
    static int give(int own) throws InterruptedException { return exchanger.exchange(own); }
    public static void main(String[] words) throws Exception { Meet.run(2, me -> give(me)); }
}
