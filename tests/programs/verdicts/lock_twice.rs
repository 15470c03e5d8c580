// Verdict: violation lock_twice::add
// Blocks: *add
// A Mutex taken twice, with another thread's add between.
use std::io::{Read, Write};
use std::os::unix::net::UnixStream;
use std::sync::Mutex;
static X: Mutex<u32> = Mutex::new(0);
fn add(p: Option<&mut UnixStream>) {
    let v = *X.lock().unwrap();
    if let Some(p) = p {
        p.write_all(b"x").unwrap();
        p.read_exact(&mut [0]).unwrap();
    }
    *X.lock().unwrap() = v + 1;
}
fn main() {
    let (mut a, mut b) = UnixStream::pair().unwrap();
    let t = std::thread::spawn(move || {
        b.read_exact(&mut [0]).unwrap();
        add(None);
        b.write_all(b"x").unwrap();
    });
    add(Some(&mut a));
    t.join().unwrap();
}
