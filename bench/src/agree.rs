//! The float methods must find what the exact one finds, or their times mean nothing.
use crate::merge::Merge;
use crate::proved::Proved;
use crate::rows::{Row, GROWTH, ROWS};
use crate::scene::{Method, Ray};
use crate::step::Step;
use std::panic::catch_unwind;

/// How far a sum may be off, as a share of the exact one.
const SUM: f64 = 1e-6;
/// How far a length may be off, as a share of the ray's. Stretches shorter than that may be missing.
const LENGTH: f64 = 1e-9;
const ROUNDS: usize = 3;

type Entries = Vec<(u32, f64)>;

/// Checks every row but the largest array, tells what differs and how many checks passed, and whether all did.
pub fn agree() -> bool {
    let (mut passed, mut failed) = (0, 0);
    for row in ROWS.iter().chain(GROWTH.iter().filter(|row| row.n == 128)) {
        for (name, differing) in [("merge", differing::<Merge> as fn(&Row) -> Option<String>), ("incremental", differing::<Step>)] {
            let stopped = |_| Some("it stopped, as told on standard error".to_string());
            match catch_unwind(|| differing(row)).unwrap_or_else(stopped) {
                None => passed += 1,
                Some(difference) => {
                    failed += 1;
                    println!("{}, {}: {name}: {difference}", row.kind.name(), row.n);
                }
            }
        }
    }
    println!("{passed} passed, {failed} failed");
    failed == 0
}

/// The first ray of a row for which a method differs from the exact one, and how.
fn differing<M: Method>(row: &Row) -> Option<String> {
    let (grid, densities) = (row.grid(), row.densities());
    let (mut exact, mut method) = (Proved::new(&grid), M::new(&grid));
    let mut difference = |ray: &Ray| {
        let sums = (exact.trace(ray, &densities), method.trace(ray, &densities));
        Some(format!("from {:?} to {:?}: {}", ray.p, ray.q, between(sums, exact.entries(), method.entries())?))
    };
    (0..ROUNDS).find_map(|round| row.rays(round, 0).iter().find_map(&mut difference))
}

/// A test is written as what must hold and its opposite, so that it fails where a number is none.
fn between((sum, other_sum): (f64, f64), exact: Entries, other: Entries) -> Option<String> {
    if !((sum - other_sum).abs() <= SUM * sum) {
        return Some(format!("the sum is {other_sum}, and the exact one {sum}"));
    }
    let total = |entries: &Entries| entries.iter().map(|entry| entry.1).sum::<f64>();
    if !((total(&exact) - total(&other)).abs() <= LENGTH) {
        return Some(format!("the lengths come to {}, and the exact ones to {}", total(&other), total(&exact)));
    }
    let seen = |entries: Entries| entries.into_iter().filter(|entry| entry.1 > LENGTH).collect::<Entries>();
    let (exact, other) = (seen(exact), seen(other));
    let alike = |(one, two): (&(u32, f64), &(u32, f64))| one.0 == two.0 && (one.1 - two.1).abs() <= LENGTH;
    if exact.len() != other.len() || !exact.iter().zip(&other).all(alike) {
        return Some(format!("the entries are {other:?}, and the exact ones {exact:?}"));
    }
    None
}
