//! The kinds of rays, made by a fixed rule.
use crate::scene::{Grid, Ray, FACE};

/// Where rays from outside begin and end: beyond a face.
const OUT: i32 = FACE + 1000;

/// The pixels of the detector of a fan, each way.
const PIXELS: i32 = 64;

#[derive(Clone, Copy)]
pub enum Kind {
    Corner,
    Oblique,
    Along,
    Fan,
    Short,
}

impl Kind {
    pub fn name(self) -> &'static str {
        match self {
            Kind::Corner => "corner to corner",
            Kind::Oblique => "oblique",
            Kind::Along => "along one axis",
            Kind::Fan => "fan",
            Kind::Short => "short",
        }
    }

    /// The rays of one turn at the clock. Another spread gives others, but for the corners, of which there are only eight.
    pub fn rays(self, grid: &Grid, mut spread: Spread) -> Vec<Ray> {
        match self {
            Kind::Corner => (0..2000).map(corner).collect(),
            Kind::Oblique => (0..500).map(|at| oblique(at, &mut spread)).collect(),
            Kind::Along => (0..500).map(|at| along(at, &mut spread)).collect(),
            Kind::Fan => fan(&mut spread),
            Kind::Short => (0..10_000).map(|_| short(grid, &mut spread)).collect(),
        }
    }
}

/// Numbers by a fixed rule (splitmix64).
pub struct Spread(u64);

impl Spread {
    /// Others for each row of a table, each round and each method.
    pub fn new(kind: Kind, n: u32, round: usize, method: usize) -> Spread {
        Spread(((kind as u64) << 48) + (u64::from(n) << 32) + ((round as u64) << 8) + method as u64)
    }

    fn next(&mut self) -> u64 {
        self.0 = self.0.wrapping_add(0x9e37_79b9_7f4a_7c15);
        let z = (self.0 ^ self.0 >> 30).wrapping_mul(0xbf58_476d_1ce4_e5b9);
        let z = (z ^ z >> 27).wrapping_mul(0x94d0_49bb_1331_11eb);
        z ^ z >> 31
    }

    /// A number from 0 to below `most`.
    fn below(&mut self, most: i32) -> i32 {
        (self.next() % most as u64) as i32
    }

    /// A point of the array.
    fn point(&mut self) -> [i32; 3] {
        [(); 3].map(|()| self.below(2 * FACE) - FACE)
    }
}

/// The four space diagonals, both ways: all three planes are crossed at once, everywhere.
fn corner(at: usize) -> Ray {
    let p = [0, 1, 2].map(|a| if at >> a & 1 == 0 { -FACE } else { FACE });
    Ray { p, q: p.map(|c| -c) }
}

/// From beyond one face to beyond the opposite one, on an axis and from a side that change from ray to ray.
fn through(at: usize, mut p: [i32; 3], mut q: [i32; 3]) -> Ray {
    let (axis, side) = (at % 3, if at % 2 == 0 { OUT } else { -OUT });
    (p[axis], q[axis]) = (side, -side);
    Ray { p, q }
}

/// The ends spread over the two faces.
fn oblique(at: usize, spread: &mut Spread) -> Ray {
    through(at, spread.point(), spread.point())
}

/// Still on two axes.
fn along(at: usize, spread: &mut Spread) -> Ray {
    let place = spread.point();
    through(at, place, place)
}

/// A source beyond one face, and a detector behind the opposite one: pixel after pixel, row after row.
fn fan(spread: &mut Spread) -> Vec<Ray> {
    let (at, source) = (spread.below(6) as usize, spread.point());
    let (u, v) = ((at + 1) % 3, (at + 2) % 3);
    let pixel = |number: i32| (2 * number + 1) * FACE / PIXELS - FACE;
    let ray = |number: i32| {
        let mut q = source;
        (q[u], q[v]) = (pixel(number % PIXELS), pixel(number / PIXELS));
        through(at, source, q)
    };
    (0..PIXELS * PIXELS).map(ray).collect()
}

/// Both ends inside, and at most seven planes between them: one voxel to eight.
fn short(grid: &Grid, spread: &mut Spread) -> Ray {
    loop {
        let p = spread.point();
        let q = [0, 1, 2].map(|a| p[a] + spread.below(6 * grid.d[a]) - 3 * grid.d[a]);
        let voxel = |point: [i32; 3], a: usize| (point[a] - grid.b[a]) / grid.d[a];
        let planes: i32 = (0..3).map(|a| (voxel(q, a) - voxel(p, a)).abs()).sum();
        if planes < 8 && p != q && q.iter().all(|c| c.abs() < FACE) {
            return Ray { p, q };
        }
    }
}
