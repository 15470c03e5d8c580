//! Tests that start threads, as cargo test has them run.
use std::sync::{Arc, Mutex};

fn add(to: &Mutex<i64>) {
    *to.lock().unwrap() += 1;
}

fn add_twice(to: &Arc<Mutex<i64>>) {
    let theirs = Arc::clone(to);
    let other = std::thread::spawn(move || add(&theirs));
    add(to);
    other.join().unwrap();
}

#[cfg(test)]
mod tests {
    use super::*;

    #[test]
    fn adds_in_threads() {
        let money = Arc::new(Mutex::new(0));
        let theirs = Arc::clone(&money);
        let other = std::thread::spawn(move || add(&theirs));
        add(&money);
        other.join().unwrap();
        assert_eq!(*money.lock().unwrap(), 2);
    }

    #[test]
    fn adds_twice() {
        let money = Arc::new(Mutex::new(0));
        add_twice(&money);
        assert_eq!(*money.lock().unwrap(), 2);
    }
}
