// Verdict: serializable
// Blocks: *raise,*look
// A writer of a RwLock becomes a reader of it, and another reader comes while it reads. Steps by pipes.
use std::io::{Read, Write};
use std::os::unix::net::UnixStream;
use std::sync::{RwLock, RwLockWriteGuard};
static X: RwLock<u32> = RwLock::new(0);
fn look() -> u32 {
    *X.read().unwrap()
}
fn raise(s: &mut UnixStream) -> u32 {
    let mut writer = X.write().unwrap();
    *writer += 1;
    let reader = RwLockWriteGuard::downgrade(writer);
    s.write_all(b"x").unwrap();
    s.read_exact(&mut [0]).unwrap();
    *reader
}
fn main() {
    let (mut a, mut b) = UnixStream::pair().unwrap();
    let t = std::thread::spawn(move || {
        b.read_exact(&mut [0]).unwrap();
        let seen = look();
        b.write_all(b"x").unwrap();
        seen
    });
    assert_eq!(raise(&mut a), 1);
    assert_eq!(t.join().unwrap(), 1);
}
