// Verdict: serializable
// Blocks: *mine,*yours
// Atomics of one, two and four bytes beside one another in a structure.
use std::io::{Read, Write};
use std::os::unix::net::UnixStream;
use std::sync::atomic::{AtomicU16, AtomicU32, AtomicU8, Ordering::*};
use std::sync::Arc;
#[derive(Default)]
#[repr(C)]
struct S {
    a: AtomicU8,
    b: AtomicU8,
    c: AtomicU16,
    d: AtomicU32,
}
fn mine(s: &S, p: &mut UnixStream) {
    s.a.fetch_add(1, Relaxed);
    s.c.store(1, Release);
    p.write_all(b"x").unwrap();
    p.read_exact(&mut [0]).unwrap();
    s.a.load(Acquire);
    s.c.swap(2, SeqCst);
}
fn yours(s: &S) {
    s.b.fetch_add(1, Relaxed);
    s.d.store(1, Release);
    s.b.load(Acquire);
    s.d.fetch_max(7, SeqCst);
}
fn main() {
    let s = Arc::new(S::default());
    let t = s.clone();
    let (mut a, mut b) = UnixStream::pair().unwrap();
    let h = std::thread::spawn(move || {
        b.read_exact(&mut [0]).unwrap();
        yours(&t);
        b.write_all(b"x").unwrap();
    });
    mine(&s, &mut a);
    h.join().unwrap();
}
