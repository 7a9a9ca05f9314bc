//! How a time is measured, and the tables that are printed.

use std::time::{Duration, Instant};

pub const KB: usize = 1 << 10;

/// How long one measurement goes on, unless fewer than the least calls are done by then, or the most are earlier. A
/// call that takes longer is not repeated.
const BUDGET: Duration = Duration::from_millis(200);
const CALLS_MIN: usize = 5;
const CALLS_MAX: usize = 1_000;

/// The shortest time of a call in seconds, which other programs on the machine disturb least.
pub fn shortest(mut call: impl FnMut() -> Duration) -> f64 {
    let begun = Instant::now();
    let mut shortest = call();
    for calls in 1..CALLS_MAX {
        if begun.elapsed() > BUDGET && (calls >= CALLS_MIN || shortest > BUDGET) {
            break;
        }
        shortest = shortest.min(call());
    }
    shortest.as_secs_f64()
}

pub fn head(title: &str) {
    println!(
        "{title:<36}{:>10}{:>10}{:>8}{:>12}{:>10}{:>8}{:>9}",
        "library", "MB/s", "growth", "other", "MB/s", "growth", "ratio"
    );
}

/// The times of library and other implementation for so many bytes, and beside those of the row before.
pub fn row(name: &str, size: usize, times: [f64; 2], before: Option<[f64; 2]>) {
    print!("  {name:<32}");
    for (which, time) in times.iter().enumerate() {
        let speed = size as f64 / (KB * KB) as f64 / time;
        let growth = before.map_or(String::new(), |before| format!("{:.2}", time / before[which]));
        print!("{:>12}{speed:>10.2}{growth:>8}", duration_name(*time));
    }
    println!("{:>9.2}", times[0] / times[1]);
}

fn duration_name(seconds: f64) -> String {
    match seconds {
        s if s < 1e-6 => format!("{:.1} ns", s * 1e9),
        s if s < 1e-3 => format!("{:.1} us", s * 1e6),
        s => format!("{:.2} ms", s * 1e3),
    }
}

pub fn size_name(size: usize) -> String {
    if size < KB {
        format!("{size} B")
    } else {
        format!("{} KB", size / KB)
    }
}
