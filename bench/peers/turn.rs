// The same loop over std's Mutex: a line each for 1, 2 and 4 threads.
use std::sync::Mutex;
use std::thread;
use std::time::Instant;

const ASKS: u64 = 2_000_000;

struct Counter {
    sum: u64,
}

impl Counter {
    fn step(&mut self, request: &u64) -> u64 {
        self.sum = self.sum.saturating_add(*request);
        self.sum
    }
}

fn one(counter: &Mutex<Counter>) -> u64 {
    let mut mixed = 0;
    for _ in 0..ASKS {
        mixed ^= counter.lock().unwrap().step(&1);
    }
    mixed
}

fn main() {
    for threads in [1, 2, 4] {
        let counter = Mutex::new(Counter { sum: 0 });
        let start = Instant::now();
        let mixed = thread::scope(|scope| {
            let others: Vec<_> = (1..threads).map(|_| scope.spawn(|| one(&counter))).collect();
            let mine = one(&counter);
            others.into_iter().fold(mine, |mixed, other| mixed ^ other.join().unwrap())
        });
        let nanos = start.elapsed().as_nanos();
        let sum = counter.into_inner().unwrap().sum;
        println!("{threads} {nanos} {sum} {mixed}");
    }
}
