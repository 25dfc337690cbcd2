// The yardstick: threads that count up under one `std::sync::Mutex`. Prints the count and the nanoseconds.
use std::env;
use std::sync::Mutex;
use std::thread;
use std::time::Instant;

fn main() {
    let words: Vec<u64> = env::args().skip(1).map(|word| word.parse().expect("a number")).collect();
    let (threads, turns) = (words[0], words[1]);
    let start = Instant::now();
    let tally = Mutex::new(0u64);
    thread::scope(|scope| {
        for _ in 0..threads {
            scope.spawn(|| {
                for _ in 0..turns {
                    let mut count = tally.lock().expect("no thread panics");
                    *count = count.wrapping_add(1);
                }
            });
        }
    });
    let counted = *tally.lock().expect("no thread panics");
    println!("{counted} {}", start.elapsed().as_nanos());
}
