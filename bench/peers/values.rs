// What Rust's standard library takes for the same texts: `parse` of a bool, an i64 and an f64, and
// `write!` of them into a string that is used again.
use std::fmt::Write;
use std::hint::black_box;
use std::time::Instant;

const BURSTS: u32 = 20;

const ROUNDS: u128 = 50;

fn measure<T: std::str::FromStr + std::fmt::Display>(folder: &str, name: &str) {
    let text = std::fs::read_to_string(format!("{folder}/{name}")).unwrap();
    let texts: Vec<&str> = text.lines().filter(|line| line.parse::<T>().is_ok()).collect();
    let values: Vec<T> = texts.iter().filter_map(|text| text.parse().ok()).collect();
    let count = ROUNDS * texts.len() as u128;
    let mut out = String::new();
    let (mut reading, mut printing) = (u128::MAX, u128::MAX);
    for _ in 0..BURSTS {
        let start = Instant::now();
        for _ in 0..ROUNDS {
            for text in &texts {
                black_box(black_box(*text).parse::<T>().is_ok());
            }
        }
        reading = reading.min(start.elapsed().as_nanos());
        let start = Instant::now();
        for _ in 0..ROUNDS {
            for value in &values {
                out.clear();
                write!(out, "{value}").unwrap();
                black_box(out.as_str());
            }
        }
        printing = printing.min(start.elapsed().as_nanos());
    }
    println!("{name} {} {}", reading * 1_000 / count, printing * 1_000 / count);
}

fn main() {
    let folder = std::env::args().nth(1).unwrap();
    measure::<bool>(&folder, "bool");
    measure::<i64>(&folder, "int");
    measure::<f64>(&folder, "real");
}
