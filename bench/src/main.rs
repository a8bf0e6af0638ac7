//! The library against plain Rust: same machine, same input, one thread, the minimum of several rounds, as Markdown tables.
//! Every opponent's answers are compared with the library's before anything is measured.
//!
//! `bench/run` builds this and pins it to one core. `NUMOLEFAYS_SECONDS` is what one contestant may use for one row (1).
//! Arguments: which tables, of points, files, estimates, turns, border, components and accounts; all where there is none.

mod accounts;
mod border;
mod components;
mod estimates;
mod files;
mod input;
mod plain;
mod points;
mod table;
mod timing;
mod turns;

const SHAPES: [(u32, u32); 5] = [(8, 5), (7, 5), (5, 6), (4, 7), (2, 8)];

/// Prints one table, over these shapes if it is about shapes, with so many seconds for a contestant and a row.
type Print = fn(&[(u32, u32)], f64);

fn main() {
    let seconds = std::env::var("NUMOLEFAYS_SECONDS").ok().and_then(|s| s.parse().ok()).unwrap_or(1.0);
    println!("{}", machine());
    let chosen: Vec<String> = std::env::args().skip(1).collect();
    let tables: [(&str, Print); 7] = [
        ("points", points::print),
        ("files", files::print),
        ("estimates", estimates::print),
        ("turns", turns::print),
        ("border", |_, seconds| border::print(seconds)),
        ("components", |_, seconds| components::print(seconds)),
        ("accounts", |_, seconds| accounts::print(seconds)),
    ];
    for (name, print) in tables {
        if chosen.is_empty() || chosen.iter().any(|c| c == name) {
            print(&SHAPES, seconds);
        }
    }
}

/// What it ran on.
fn machine() -> String {
    let info = std::fs::read_to_string("/proc/cpuinfo").unwrap_or_default();
    let model =
        info.lines().find(|l| l.starts_with("model name")).and_then(|l| l.split(": ").nth(1)).unwrap_or("unknown");
    let load = std::fs::read_to_string("/proc/loadavg").unwrap_or_default();
    let load = load.split(' ').next().unwrap_or("unknown").to_string();
    format!("Processor: {model}; load when it began: {load}. The library: archive by `tools/build`; the others: rustc, opt-level 3.")
}
