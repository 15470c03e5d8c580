package aerodrome.hooks;

import java.util.function.BinaryOperator;
import java.util.function.IntBinaryOperator;
import java.util.function.IntUnaryOperator;
import java.util.function.LongBinaryOperator;
import java.util.function.LongUnaryOperator;
import java.util.function.UnaryOperator;

/**
 * Wraps the function that a program gives to `updateAndGet` and the like. The write is logged once the function has returned the next
 * value, so a call whose function throws has written nothing. Instrumented code has the type of its function by the descriptor.
 */
@SuppressWarnings("overloads")
public final class Updates {
    private Updates() { }

    public static IntUnaryOperator telling(IntUnaryOperator by, Call call) {
        if (by == null || call == null) return by;
        return value -> {
            int next = by.applyAsInt(value);
            call.updates();
            return next;
        };
    }
    public static LongUnaryOperator telling(LongUnaryOperator by, Call call) {
        if (by == null || call == null) return by;
        return value -> {
            long next = by.applyAsLong(value);
            call.updates();
            return next;
        };
    }
    public static UnaryOperator<Object> telling(UnaryOperator<Object> by, Call call) {
        if (by == null || call == null) return by;
        return value -> {
            Object next = by.apply(value);
            call.updates();
            return next;
        };
    }
    public static IntBinaryOperator telling(IntBinaryOperator by, Call call) {
        if (by == null || call == null) return by;
        return (value, other) -> {
            int next = by.applyAsInt(value, other);
            call.updates();
            return next;
        };
    }
    public static LongBinaryOperator telling(LongBinaryOperator by, Call call) {
        if (by == null || call == null) return by;
        return (value, other) -> {
            long next = by.applyAsLong(value, other);
            call.updates();
            return next;
        };
    }
    public static BinaryOperator<Object> telling(BinaryOperator<Object> by, Call call) {
        if (by == null || call == null) return by;
        return (value, other) -> {
            Object next = by.apply(value, other);
            call.updates();
            return next;
        };
    }
}
