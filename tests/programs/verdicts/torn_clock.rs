// Verdict: violation torn_clock::Clock::now
// Blocks: *torn_clock::*,-torn_clock::main*
// A timer's clock has its seconds and its parts of a second in two atomics. Another thread moves it between the two loads, so the time
// that is read never was. The threads are scoped, and step by a Barrier.
use std::sync::atomic::{AtomicU32, AtomicU64, Ordering};
use std::sync::Barrier;
use std::thread;

#[derive(Debug, PartialEq)]
struct Moment {
    seconds: u64,
    nanos: u32,
}

struct Clock {
    seconds: AtomicU64,
    nanos: AtomicU32,
}

impl Clock {
    fn set(&self, moment: Moment) {
        self.seconds.store(moment.seconds, Ordering::Release);
        self.nanos.store(moment.nanos, Ordering::Release);
    }

    fn now(&self, between: &mut dyn FnMut()) -> Moment {
        let seconds = self.seconds.load(Ordering::Acquire);
        between();
        let nanos = self.nanos.load(Ordering::Acquire);
        Moment { seconds, nanos }
    }
}

fn main() {
    let clock = Clock { seconds: AtomicU64::new(4), nanos: AtomicU32::new(999) };
    let between = Barrier::new(2);
    let read = thread::scope(|scope| {
        scope.spawn(|| {
            between.wait();
            clock.set(Moment { seconds: 5, nanos: 1 });
            between.wait();
        });
        clock.now(&mut || {
            between.wait();
            between.wait();
        })
    });
    assert_eq!(read, Moment { seconds: 4, nanos: 1 });
    assert_eq!(clock.now(&mut || ()), Moment { seconds: 5, nanos: 1 });
}
