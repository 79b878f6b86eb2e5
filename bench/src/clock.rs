//! The clock: one thread, the methods in turn, and in every round rays that no other turn has had.
use crate::floor::Floor;
use crate::merge::Merge;
use crate::proved::Proved;
use crate::rows::Row;
use crate::scene::{Method, Ray};
use crate::step::Step;
use std::hint::black_box;
use std::time::Instant;

/// Odd, so that one round is the middle, and each method begins in a third of them.
pub const ROUNDS: usize = 153;

/// Places in a round.
const PROVED: usize = 0;
const MERGE: usize = 1;
const STEP: usize = 2;
const FLOOR: usize = 3;
const ENTRIES: usize = 4;

/// Nanoseconds per ray, and entries per ray.
type Round = [f64; 5];

/// What the rounds of a row come to. A ratio is the median of the rounds' own ratios, since within a round all meet the same machine.
pub struct Figures {
    pub entries: f64,
    pub best: f64,
    pub median: f64,
    pub over_merge: f64,
    pub over_step: f64,
    pub floor: f64,
}

pub fn figures(row: &Row) -> Figures {
    let (grid, densities) = (row.grid(), row.densities());
    let (mut proved, mut merge, mut step) = (Proved::new(&grid), Merge::new(&grid), Step::new(&grid));
    let mut rounds = Vec::new();
    for round in 0..=ROUNDS {
        let rays = [PROVED, MERGE, STEP, FLOOR].map(|turn| row.rays(round, turn));
        let floor = Floor::new(&mut proved, &rays[FLOOR], &densities);
        let mut this = [0.0; 5];
        this[ENTRIES] = floor.entries();
        for turn in [round, round + 1, round + 2].map(|turn| turn % 3) {
            this[turn] = match turn {
                PROVED => per_ray(&mut proved, &rays[turn], &densities),
                MERGE => per_ray(&mut merge, &rays[turn], &densities),
                _ => per_ray(&mut step, &rays[turn], &densities),
            };
        }
        // last, so that the others have used the caches since its lists were made
        this[FLOOR] = floor.per_ray(&densities);
        rounds.push(this);
    }
    rounds.remove(0); // it warmed the lists
    told(&rounds)
}

fn per_ray<M: Method>(method: &mut M, rays: &[Ray], densities: &[u16]) -> f64 {
    let began = Instant::now();
    for ray in rays {
        black_box(method.trace(black_box(ray), densities));
    }
    began.elapsed().as_secs_f64() * 1e9 / rays.len() as f64
}

fn told(rounds: &[Round]) -> Figures {
    let ordered = |figure: fn(&Round) -> f64| {
        let mut all: Vec<f64> = rounds.iter().map(figure).collect();
        all.sort_by(f64::total_cmp);
        all
    };
    let median = |figure| ordered(figure)[rounds.len() / 2];
    Figures {
        entries: rounds.iter().map(|r| r[ENTRIES]).sum::<f64>() / rounds.len() as f64,
        best: ordered(|r| r[PROVED])[0],
        median: median(|r| r[PROVED]),
        over_merge: median(|r| r[PROVED] / r[MERGE]),
        over_step: median(|r| r[PROVED] / r[STEP]),
        floor: median(|r| r[FLOOR] / r[PROVED]),
    }
}
