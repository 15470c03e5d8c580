fn visit() {
    part::sell(1);
}
fn main() {
    let visitors: Vec<_> = (0..2).map(|_| std::thread::spawn(|| visit())).collect();
    for visitor in visitors {
        visitor.join().unwrap();
    }
    println!("{} {}", env!("SOLD"), part::sell(0));
}
