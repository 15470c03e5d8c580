use std::sync::Mutex;

pub static SOLD: Mutex<i64> = Mutex::new(0);

pub fn sell(count: i64) -> i64 {
    let mut sold = SOLD.lock().unwrap();
    *sold += count;
    *sold
}
