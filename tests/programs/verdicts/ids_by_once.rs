// Verdict: violation ids_by_once::Ids::next
// Blocks: *Ids::*
// Identifiers come from a map that is filled once, at the first use. The next one is read and written under two locks, and another
// thread takes one in between. A Barrier lets it in, and isn't in the log.
use std::collections::HashMap;
use std::sync::{Barrier, Mutex, Once};
use std::thread;

struct Ids {
    filled: Once,
    last: Mutex<HashMap<&'static str, u64>>,
}

impl Ids {
    fn new() -> Ids {
        Ids { filled: Once::new(), last: Mutex::new(HashMap::new()) }
    }

    fn last(&self, space: &str) -> u64 {
        self.filled.call_once(|| {
            self.last.lock().unwrap().insert("orders", 100);
        });
        self.last.lock().unwrap().get(space).copied().unwrap_or(0)
    }

    fn next(&self, space: &'static str, reserve: &dyn Fn()) -> u64 {
        let id = self.last(space) + 1;
        reserve();
        self.last.lock().unwrap().insert(space, id);
        id
    }
}

fn main() {
    let ids = Ids::new();
    let between = Barrier::new(2);
    assert_eq!(ids.next("orders", &|| ()), 101);
    thread::scope(|scope| {
        let other = scope.spawn(|| {
            between.wait();
            let id = ids.next("orders", &|| ());
            between.wait();
            id
        });
        let mine = ids.next("orders", &|| {
            between.wait();
            between.wait();
        });
        assert_eq!((mine, other.join().unwrap()), (102, 102));
    });
    assert_eq!(ids.last("orders"), 102);
}
