class Counter {
    private int value;

    @Atomic void add() {
        int before = value;
        Turns.between();
        value = before + 1;
    }

    void addTwice() {
        value++;
        Turns.between();
        value++;
    }
}
