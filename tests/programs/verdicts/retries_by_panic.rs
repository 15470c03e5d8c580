// Verdict: violation retries_by_panic::retry
// A block tries until its job doesn't panic, and counts the tries in a Mutex, which it takes anew for each try. The panic poisons no
// lock, and ends the functions inside the block. Meanwhile another thread counts a try of its own.
use std::io::{Read, Write};
use std::os::unix::net::UnixStream;
use std::panic::{catch_unwind, resume_unwind, AssertUnwindSafe};
use std::sync::{Mutex, MutexGuard, PoisonError};
use std::thread;

struct Tries {
    count: u32,
    log: Vec<&'static str>,
}

static TRIES: Mutex<Tries> = Mutex::new(Tries { count: 0, log: Vec::new() });

fn tries() -> MutexGuard<'static, Tries> {
    TRIES.lock().unwrap_or_else(PoisonError::into_inner)
}

fn count(who: &'static str) -> u32 {
    let mut tries = tries();
    tries.count += 1;
    tries.log.push(who);
    tries.count
}

fn job(stream: &mut UnixStream, counted: u32) -> u32 {
    if counted > 1 {
        return counted * 10;
    }
    stream.write_all(b"1").unwrap();
    stream.read_exact(&mut [0]).unwrap();
    resume_unwind(Box::new("no luck"))
}

fn retry(stream: &mut UnixStream, most: usize) -> Option<u32> {
    for _ in 0..most {
        let counted = count("retry");
        let done = catch_unwind(AssertUnwindSafe(|| job(stream, counted)));
        if let Ok(value) = done {
            return Some(value);
        }
    }
    None
}

fn main() {
    let (mut mine, mut others) = UnixStream::pair().unwrap();
    let other = thread::spawn(move || {
        others.read_exact(&mut [0]).unwrap();
        count("other");
        others.write_all(b"2").unwrap();
    });
    let value = retry(&mut mine, 3);
    other.join().unwrap();
    assert_eq!(value, Some(30));
    assert_eq!(tries().log, ["retry", "other", "retry"]);
}
