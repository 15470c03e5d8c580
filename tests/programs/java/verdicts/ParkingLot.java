import java.util.ArrayList;
import java.util.List;
import java.util.concurrent.atomic.AtomicReference;

// V: a car is added to a copy of the list, which replaces the list without a comparison; blames ParkingLot.park
public class ParkingLot {
    private final int places;
    private final AtomicReference<List<String>> cars = new AtomicReference<>(List.of());

    ParkingLot(int places) { this.places = places; }

    boolean park(String car, Runnable between) {
        List<String> now = cars.get();
        if (now.size() == places) return false;
        List<String> then = new ArrayList<>(now);
        then.add(car);
        between.run();
        cars.set(List.copyOf(then));
        return true;
    }

    int free() { return places - cars.get().size(); }

    public static void main(String[] words) {
        ParkingLot lot = new ParkingLot(3);
        Turns.run(() -> lot.park("red", () -> {
            Turns.say("copied");
            Turns.await("parked");
        }), () -> {
            Turns.await("copied");
            lot.park("blue", () -> { });
            Turns.say("parked");
        });
        System.out.println(lot.cars.get() + ", free " + lot.free());
    }
}
