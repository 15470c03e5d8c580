// Verdict: serializable
// Blocks: *::say
// Everybody in a chat room says something by one send into a channel. One guest has begun to speak when the other one's whole line gets
// in before it. The room receives outside of blocks.
use std::io::{Read, Write};
use std::os::unix::net::UnixStream;
use std::sync::mpsc::{channel, Sender};
use std::thread;

struct Guest {
    name: &'static str,
    spoken: usize,
    room: Sender<(usize, String)>,
}

impl Guest {
    fn new(name: &'static str, room: &Sender<(usize, String)>) -> Guest {
        Guest { name, spoken: 0, room: room.clone() }
    }

    fn say(&mut self, text: &str, hesitates: Option<&mut UnixStream>) {
        self.spoken += 1;
        let line = format!("{}: {}", self.name, text);
        if let Some(stream) = hesitates {
            stream.write_all(b"1").unwrap();
            stream.read_exact(&mut [0]).unwrap();
        }
        self.room.send((self.spoken, line)).unwrap();
    }
}

fn main() {
    let (mut mine, mut others) = UnixStream::pair().unwrap();
    let (sender, receiver) = channel();
    let mut ada = Guest::new("Ada", &sender);
    let mut bob = Guest::new("Bob", &sender);
    drop(sender);
    let other = thread::spawn(move || {
        others.read_exact(&mut [0]).unwrap();
        bob.say("I have been waiting", None);
        others.write_all(b"2").unwrap();
    });
    ada.say("well", Some(&mut mine));
    other.join().unwrap();
    ada.say("bye", None);
    drop(ada);
    let lines: Vec<(usize, String)> = receiver.iter().collect();
    let spoken: Vec<usize> = lines.iter().map(|line| line.0).collect();
    assert_eq!(spoken, [1, 1, 2]);
    assert_eq!(lines[0].1, "Bob: I have been waiting");
    assert_eq!(lines[2].1, "Ada: bye");
}
