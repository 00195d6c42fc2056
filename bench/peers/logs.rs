// The same pushes, queries, values and statuses with Rust's standard library: a `Vec` of instants and
// values in order with `partition_point`, and a `BTreeMap` from sources to counts.
use std::collections::BTreeMap;
use std::hint::black_box;
use std::time::Instant;

const ROUNDS: u64 = 100_000;

struct Record {
    time: i128,
    _value: [u64; 5],
}

fn log(records: u64) {
    let start = Instant::now();
    let mut log = Vec::new();
    for second in 0..records {
        let time = (1_000_000_000 + second as i128) * 1_000_000_000;
        log.push(black_box(Record { time, _value: [7; 5] }));
    }
    let pushing = start.elapsed().as_nanos();
    let start = Instant::now();
    let mut found = 0;
    for round in 0..ROUNDS {
        let from = (1_000_000_000 + black_box(round * 7_919 % records) as i128) * 1_000_000_000;
        let at = log.partition_point(|record| record.time < from);
        found += black_box(&log[at..(at + 10).min(log.len())]).len();
    }
    println!("log {records} {pushing} {} {found}", start.elapsed().as_nanos());
}

struct Running {
    current: Option<usize>,
    unacked: u64,
}

fn alarms(number: u64) {
    let places = BTreeMap::from([(7u64, 0usize)]);
    let mut running = vec![Running { current: None, unacked: 0 }];
    let mut alarms: Vec<(i64, bool)> = Vec::new();
    let mut turn = |value: i64, running: &mut Vec<Running>| {
        let rule = &mut running[0];
        if value < 10 || value > 30 {
            if rule.current.is_none() {
                rule.current = Some(alarms.len());
                alarms.push((value, false));
            }
        } else if let Some(place) = rule.current.take() {
            alarms[place].1 = true;
            rule.unacked += 1;
        }
    };
    for _ in 0..number {
        turn(black_box(35), &mut running);
        turn(black_box(25), &mut running);
    }
    let start = Instant::now();
    let mut found = 0;
    for _ in 0..ROUNDS {
        let place = places[&black_box(7)];
        if running[place].current.is_none() && running[place].unacked > 0 {
            found += 1;
        }
    }
    let asking = start.elapsed().as_nanos();
    let start = Instant::now();
    for _ in 0..ROUNDS / 2 {
        turn(black_box(35), &mut running);
        turn(black_box(25), &mut running);
    }
    println!("alarms {number} {} {asking} {found}", start.elapsed().as_nanos());
}

fn main() {
    for records in [10_000, 100_000, 1_000_000] {
        log(records);
    }
    for number in [1, 10, 10_000] {
        alarms(number);
    }
}
