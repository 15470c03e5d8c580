class Counter {
    private int value;

    void add() {
        int before = value;
        Turns.between();
        value = before + 1;
    }

    synchronized void addAtOnce() {
        int before = value;
        value = before + 1;
    }
}
