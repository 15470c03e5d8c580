package aerodrome.names;

/** What instrumented classes implement, so that an object holds its own number. Numbers.java says what the values mean. */
public interface Numbered {
    long aero$number();
    void aero$number(long number);
}
