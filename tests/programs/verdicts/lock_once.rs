// Verdict: serializable
// Blocks: *add
// A Mutex held over the whole; threads in a scope.
use std::sync::Mutex;
static X: Mutex<Vec<u32>> = Mutex::new(Vec::new());
fn add(n: u32) {
    let mut v = X.lock().unwrap();
    let l = v.len() as u32;
    v.push(n + l);
}
fn main() {
    std::thread::scope(|s| {
        for n in 0..3 {
            s.spawn(move || {
                for _ in 0..30 {
                    add(n);
                }
            });
        }
    });
    assert_eq!(X.lock().unwrap().len(), 90);
}
