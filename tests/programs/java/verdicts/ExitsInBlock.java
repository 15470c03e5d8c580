// V: a block that lost an update ends the program by System.exit, and its log is whole; blames ExitsInBlock.lastOrder
public class ExitsInBlock {
    private static volatile int orders = 7;

    static void order() { orders = orders + 1; }

    static void lastOrder() {
        int old = orders;
        Turns.say("counted");
        Turns.await("ordered");
        orders = old + 1;
        System.exit(orders == 8 ? 0 : 1);
    }

    public static void main(String[] words) throws Exception {
        Thread last = new Thread(ExitsInBlock::lastOrder);
        last.start();
        Turns.await("counted");
        order();
        Turns.say("ordered");
        last.join();
    }
}
