class Bank {

    synchronized void withdraw(long amount) { balance = balance - amount; } // of whoever asks
}
