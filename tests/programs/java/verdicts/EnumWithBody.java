// S: constants of an enum, each with a body and a number of its own, under their monitors
public class EnumWithBody {
    enum Till {
        LEFT {
            @Override synchronized void take(int amount) { money += amount; }
        },
        RIGHT {
            @Override synchronized void take(int amount) { money += 2 * amount; }
        };

        int money;
        abstract void take(int amount);
        synchronized int money() { return money; }
    }
    static void run() {
        for (int one = 0; one < 50; one++) Till.values()[one % 2].take(1);
    }
    public static void main(String[] words) {
        Turns.run(EnumWithBody::run, EnumWithBody::run);
        System.out.println(Till.LEFT.money() + " " + Till.RIGHT.money());
    }
}
