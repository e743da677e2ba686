//! bench-rust yaml-rust ROUNDS FILE: as bench.c, for the scanner of yaml-rust.
use std::time::Instant;
use yaml_rust::scanner::Scanner;

fn scan(text: &str) -> i64 {
    let mut scanner = Scanner::new(text.chars());
    let count = scanner.by_ref().count() as i64;
    if scanner.get_error().is_some() { -1 } else { count }
}

/// The peak of this process in KB, as the kernel tells it.
fn peak() -> u64 {
    let status = std::fs::read_to_string("/proc/self/status").unwrap_or_default();
    let line = status.lines().find_map(|l| l.strip_prefix("VmHWM:"));
    line.and_then(|l| l.trim().trim_end_matches(" kB").parse().ok()).unwrap_or(0)
}

fn main() {
    let args: Vec<String> = std::env::args().collect();
    let text = std::fs::read_to_string(&args[3]).expect("a text");
    let mut best = f64::MAX;
    let mut count = 0;
    for _ in 0..args[2].parse().expect("rounds") {
        let start = Instant::now();
        count = scan(&text);
        best = best.min(start.elapsed().as_nanos() as f64);
    }
    println!("{best:.0} {count} {} {}", peak(), text.len());
}
