// Locks of Rust's std. Threads wait for each other by sockets, which no log has, so each run has the same order.
//
//   bank apart      a withdrawal takes the lock twice, and another one comes between
//   bank together   each takes it once
//   bank locks      a helper finds TOTAL and RATES taken, and then takes them in each way
//   bank sleeps     a helper waits for TOTAL and RATES until main, which holds them, has seen it sleep
//   bank waits      a thread waits on a condition variable
//   bank runs_out   a thread waits on it for a millisecond, and nobody tells it
use std::io::{Read, Write};
use std::os::unix::net::UnixStream;
use std::sync::{Arc, Condvar, Mutex, RwLock};
use std::thread;
use std::time::Duration;

static TOTAL: Mutex<i64> = Mutex::new(100);
static RATES: RwLock<i64> = RwLock::new(1);
static IS_OPEN: Mutex<bool> = Mutex::new(false);
static OPENED: Condvar = Condvar::new();

struct Place(UnixStream);
impl Place {
    fn pass(&self) {
        (&self.0).write_all(b"x").unwrap();
    }
    fn wait(&self) {
        (&self.0).read_exact(&mut [0]).unwrap();
    }
}

trait Counted {
    fn count(&self) -> usize;
}
impl Counted for Vec<i64> {
    fn count(&self) -> usize {
        self.len()
    }
}

struct Account {
    balance: Mutex<i64>,
}
impl Drop for Account {
    fn drop(&mut self) {
        println!("{}", vec![self.get()].count());
    }
}
impl Account {
    fn get(&self) -> i64 {
        *self.balance.lock().unwrap()
    }
    fn withdraw_apart(&self, amount: i64, between: impl FnOnce()) {
        let now = self.get();
        between();
        *self.balance.lock().unwrap() = now - amount;
    }
    fn withdraw_together(&self, amount: i64) {
        *self.balance.lock().unwrap() -= amount;
    }
}

fn withdraw(apart: bool) {
    let account = Arc::new(Account { balance: Mutex::new(100) });
    let (here, there) = UnixStream::pair().unwrap();
    let (here, there, shared) = (Place(here), Place(there), Arc::clone(&account));
    let other = thread::spawn(move || {
        there.wait();
        if apart {
            shared.withdraw_apart(30, || ());
        } else {
            shared.withdraw_together(30);
        }
        there.pass();
    });
    let between = || {
        here.pass();
        here.wait();
    };
    if apart {
        account.withdraw_apart(20, between);
    } else {
        account.withdraw_together(20);
        between();
    }
    other.join().unwrap();
    println!("{}", account.get());
}

fn finds_all_taken() {
    assert!(TOTAL.try_lock().is_err() && RATES.try_read().is_err() && RATES.try_write().is_err());
}
fn takes_each() {
    *TOTAL.lock().unwrap() += 1;
    *TOTAL.try_lock().unwrap() += 1;
    assert!(*RATES.read().unwrap() == *RATES.try_read().unwrap());
    *RATES.write().unwrap() += 1;
    *RATES.try_write().unwrap() += 1;
}
fn locks() {
    {
        let (_total, _rates) = (TOTAL.lock().unwrap(), RATES.write().unwrap());
        thread::spawn(finds_all_taken).join().unwrap();
    }
    thread::spawn(takes_each).join().unwrap();
}

fn takes_total() {
    *TOTAL.lock().unwrap() += 1;
}
fn takes_rates_to_read() {
    assert!(*RATES.read().unwrap() > 0);
}
fn takes_rates_to_write() {
    *RATES.write().unwrap() += 1;
}
fn sleeps(helper: fn()) {
    let guards = (TOTAL.lock().unwrap(), RATES.write().unwrap());
    let (to_main, from_helper) = std::sync::mpsc::channel();
    let thread = thread::spawn(move || {
        to_main.send(std::fs::read_link("/proc/thread-self").unwrap()).unwrap();
        helper();
    });
    let status = std::path::Path::new("/proc").join(from_helper.recv().unwrap()).join("stat");
    while !std::fs::read_to_string(&status).unwrap().contains(") S ") {
        thread::yield_now();
    }
    drop(guards);
    thread.join().unwrap();
}

fn wait_until_open(waits: &Place) {
    let mut is_open = IS_OPEN.lock().unwrap();
    waits.pass();
    while !*is_open {
        is_open = OPENED.wait(is_open).unwrap();
    }
}
fn open() {
    *IS_OPEN.lock().unwrap() = true;
    OPENED.notify_one();
}
fn waits() {
    let (here, there) = UnixStream::pair().unwrap();
    let (here, there) = (Place(here), Place(there));
    let waiter = thread::spawn(move || wait_until_open(&there));
    here.wait();
    open();
    waiter.join().unwrap();
}

fn wait_for_a_moment() {
    let is_open = IS_OPEN.lock().unwrap();
    assert!(!*OPENED.wait_timeout(is_open, Duration::from_millis(1)).unwrap().0);
}

fn main() {
    match std::env::args().nth(1).as_deref() {
        Some("apart") => withdraw(true),
        Some("together") => withdraw(false),
        Some("locks") => locks(),
        Some("sleeps") => {
            sleeps(takes_total);
            sleeps(takes_rates_to_read);
            sleeps(takes_rates_to_write);
        }
        Some("runs_out") => thread::spawn(wait_for_a_moment).join().unwrap(),
        _ => waits(),
    }
}
