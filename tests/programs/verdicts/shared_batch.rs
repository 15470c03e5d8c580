// Verdict: serializable
// The jobs of a batch are shared by an Arc, which is cloned outside of blocks. Each job is one block that takes one lock at its end, and
// the other thread does a whole job during the first one.
use std::io::{Read, Write};
use std::os::unix::net::UnixStream;
use std::sync::atomic::{AtomicUsize, Ordering};
use std::sync::{Arc, Mutex};
use std::thread;

struct Batch {
    words: Vec<String>,
    taken: AtomicUsize,
    lengths: Mutex<Vec<usize>>,
}

impl Batch {
    fn new(words: &[&str]) -> Batch {
        let words = words.iter().map(|word| word.to_string()).collect();
        Batch { words, taken: AtomicUsize::new(0), lengths: Mutex::new(Vec::new()) }
    }

    fn take(&self) -> Option<&str> {
        let place = self.taken.fetch_add(1, Ordering::Relaxed);
        self.words.get(place).map(String::as_str)
    }

    fn measure(&self, word: &str, pause: Option<&mut UnixStream>) {
        let length = word.chars().filter(|letter| letter.is_alphabetic()).count();
        if let Some(stream) = pause {
            stream.write_all(b"1").unwrap();
            stream.read_exact(&mut [0]).unwrap();
        }
        self.lengths.lock().unwrap().push(length);
    }
}

fn main() {
    let (mut mine, mut others) = UnixStream::pair().unwrap();
    let batch = Arc::new(Batch::new(&["pears", "42 apples", "a fig", "nuts!"]));
    let shared = Arc::clone(&batch);
    let other = thread::spawn(move || {
        others.read_exact(&mut [0]).unwrap();
        let word = shared.take().unwrap();
        shared.measure(word, None);
        others.write_all(b"2").unwrap();
        while let Some(word) = shared.take() {
            shared.measure(word, None);
        }
    });
    let first = batch.take().unwrap();
    batch.measure(first, Some(&mut mine));
    while let Some(word) = batch.take() {
        batch.measure(word, None);
    }
    other.join().unwrap();
    let mut lengths = batch.lengths.lock().unwrap().clone();
    assert_eq!(lengths[0], 6);
    lengths.sort_unstable();
    assert_eq!(lengths, [4, 4, 5, 6]);
}
