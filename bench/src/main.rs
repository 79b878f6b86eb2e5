//! The time of the proved trace beside two float methods; with the word `agree`, whether they find the same.
mod agree;
mod clock;
mod first;
mod floats;
mod floor;
mod lists;
mod merge;
mod proved;
mod rays;
mod rows;
mod scene;
mod step;

use clock::{figures, ROUNDS};
use rows::{Row, GROWTH, ROWS};
use std::process::ExitCode;

fn main() -> ExitCode {
    let words: Vec<String> = std::env::args().skip(1).collect();
    match words.iter().map(String::as_str).collect::<Vec<&str>>()[..] {
        [] => tables(),
        ["agree"] if agree::agree() => {}
        ["agree"] => return ExitCode::FAILURE,
        _ => {
            eprintln!("bench: no word, or the word agree");
            return ExitCode::from(2);
        }
    }
    ExitCode::SUCCESS
}

/// The name that /proc/cpuinfo gives, if it gives one.
fn processor() -> Option<String> {
    let told = std::fs::read_to_string("/proc/cpuinfo").ok()?;
    let name = told.lines().find(|line| line.starts_with("model name"))?;
    Some(name.split_once(": ")?.1.to_string())
}

fn tables() {
    if let Some(name) = processor() {
        println!("{name}");
    }
    println!(
        "{ROUNDS} rounds on one thread. Every method has rays of its own in each, but for the corners, of which there are only eight."
    );
    println!(
        "Times are the proved trace's, in ns. Over merge, over walk: its time as a multiple of that of merge and midpoint, and of the"
    );
    println!("incremental walk, so below 1 it is faster. Floor: reading the densities of known voxels, as a share of its time.");
    println!("\nEach kind of rays, n voxels each way");
    table(&ROWS);
    println!("\nHow the time grows with n");
    table(&GROWTH);
}

fn table(rows: &[Row]) {
    println!("rays                n   entries      best    median  per entry  over merge  over walk  floor");
    for row in rows {
        let f = figures(row);
        print!("{:16} {:4} {:9.1} {:9.1} {:9.1}  ", row.kind.name(), row.n, f.entries, f.best, f.median);
        println!("{:9.2}  {:10.2}  {:9.2}  {:4.0}%", f.median / f.entries, f.over_merge, f.over_step, 100.0 * f.floor);
    }
}
