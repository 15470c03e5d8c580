// Verdict: violation rw_upgrade::raise
// Blocks: *raise,*change
// A RwLock is read, given back, and written: another writer comes between. Steps by pipes.
use std::io::{Read, Write};
use std::os::unix::net::UnixStream;
use std::sync::RwLock;
static X: RwLock<u32> = RwLock::new(0);
fn change() {
    *X.write().unwrap() += 1;
}
fn raise(s: &mut UnixStream) {
    let v = *X.read().unwrap();
    s.write_all(b"x").unwrap();
    s.read_exact(&mut [0]).unwrap();
    *X.write().unwrap() = v + 1;
}
fn main() {
    let (mut a, mut b) = UnixStream::pair().unwrap();
    let t = std::thread::spawn(move || {
        b.read_exact(&mut [0]).unwrap();
        change();
        b.write_all(b"x").unwrap();
    });
    raise(&mut a);
    t.join().unwrap();
}
