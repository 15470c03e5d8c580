// Verdict: serializable
// Blocks: *fails,*add
// A panic leaves a block with its lock; the poisoned lock is taken on.
use std::sync::Mutex;
static X: Mutex<u32> = Mutex::new(0);
fn fails() {
    let mut v = X.lock().unwrap_or_else(|e| e.into_inner());
    *v += 1;
    panic!("no");
}
fn add() {
    *X.lock().unwrap_or_else(|e| e.into_inner()) += 1;
}
fn main() {
    std::panic::set_hook(Box::new(|_| {}));
    let t = std::thread::spawn(|| {
        let _ = std::panic::catch_unwind(fails);
        add();
    });
    add();
    t.join().unwrap();
    add();
}
