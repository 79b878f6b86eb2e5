//! Siddon's own method in 64-bit floats: all planes' α merged in order, and each stretch's voxel by its midpoint.
use crate::first::{over_first, Ahead};
use crate::floats::{Axis, Sides, Way};
use crate::lists::Lists;
use crate::scene::{Grid, Method, Ray};

pub struct Merge {
    sides: Sides,
    sets: [Vec<f64>; 3],
    lists: Lists,
}

/// Equations (6) and (7): the α of one axis' planes after αmin and up to αmax, and infinity as their end. They are written by fours,
/// with no test for each: what stands behind the end is never merged.
#[inline(always)]
fn fill(set: &mut [f64], axis: &Axis, way: &Way) {
    let mut plane = axis.index(way.enter) + 1;
    let count = (axis.index(way.leave) + 1 - plane) as usize;
    for four in set[..count + 4].chunks_exact_mut(4) {
        four[0] = axis.alpha(plane);
        four[1] = axis.alpha(plane + 1);
        four[2] = axis.alpha(plane + 2);
        four[3] = axis.alpha(plane + 3);
        plane += 4;
    }
    set[count] = f64::INFINITY;
}

/// The three sets, at which place the merge is in each, and the α there.
struct Merging<'a> {
    sets: [&'a [f64]; 3],
    at: [usize; 3],
    x: f64,
    y: f64,
    z: f64,
}

impl Merging<'_> {
    #[inline(always)]
    fn next(&mut self, a: usize) -> f64 {
        self.at[a] += 1;
        self.sets[a][self.at[a]]
    }
}

/// Equation (8).
impl Ahead for Merging<'_> {
    #[inline(always)]
    fn alphas(&self) -> (f64, f64, f64) {
        (self.x, self.y, self.z)
    }

    #[inline(always)]
    fn over_x(&mut self) {
        self.x = self.next(0);
    }

    #[inline(always)]
    fn over_y(&mut self) {
        self.y = self.next(1);
    }

    #[inline(always)]
    fn over_z(&mut self) {
        self.z = self.next(2);
    }
}

impl Merge {
    #[inline(always)]
    fn fill_lists(&mut self, way: &Way) {
        let [xs, ys, zs] = &self.sets;
        let mut merging = Merging { sets: [xs, ys, zs], at: [0; 3], x: xs[0], y: ys[0], z: zs[0] };
        let (voxels, lengths) = self.lists.both();
        let mut put = |at: usize, from: f64, to: f64| {
            voxels[at] = way.voxel((from + to) / 2.0); // (12) and (13)
            lengths[at] = to - from; // (10)
        };
        let (mut at, mut now) = (0, way.enter);
        loop {
            let next = over_first(&mut merging);
            if way.ends(next) {
                break;
            }
            put(at, now, next);
            at += 1;
            now = next;
        }
        put(at, now, way.leave);
        self.lists.used = at + 1;
    }
}

impl Method for Merge {
    fn new(grid: &Grid) -> Merge {
        Merge { sides: Sides::new(grid), sets: grid.n.map(|n| vec![0.0; n as usize + 4]), lists: Lists::new(grid) }
    }

    fn trace(&mut self, ray: &Ray, densities: &[u16]) -> f64 {
        self.lists.used = 0;
        let way = self.sides.way(ray);
        if way.misses() {
            return 0.0;
        }
        let [xs, ys, zs] = &mut self.sets;
        fill(xs, &way.axes[0], &way);
        fill(ys, &way.axes[1], &way);
        fill(zs, &way.axes[2], &way);
        self.fill_lists(&way);
        self.lists.sum(densities)
    }

    fn entries(&self) -> Vec<(u32, f64)> {
        self.lists.entries()
    }
}
