//! The incremental walk of Jacobs and others in 64-bit floats: from one plane to the next, with no arrays of α. Equations are numbered
//! as in their paper.
use crate::first::{over_first, Ahead};
use crate::floats::{Axis, Sides, Way};
use crate::lists::Lists;
use crate::scene::{Grid, Method, Ray};

pub struct Step {
    sides: Sides,
    lists: Lists,
}

/// The voxel that the walk is in, and the α at which it leaves it on each axis.
struct Walk<'a> {
    axes: &'a [Axis; 3],
    voxel: u32,
    x: f64,
    y: f64,
    z: f64,
}

impl Walk<'_> {
    /// At αmin: equations (11) to (18), (26) to (29).
    #[inline(always)]
    fn new(way: &Way) -> Walk<'_> {
        let ahead = |axis: &Axis| axis.alpha(axis.index(way.enter) + 1);
        let [x, y, z] = &way.axes;
        Walk { axes: &way.axes, voxel: way.voxel(way.enter), x: ahead(x), y: ahead(y), z: ahead(z) }
    }
}

/// Equations (32) to (34).
impl Ahead for Walk<'_> {
    #[inline(always)]
    fn alphas(&self) -> (f64, f64, f64) {
        (self.x, self.y, self.z)
    }

    #[inline(always)]
    fn over_x(&mut self) {
        self.x += self.axes[0].by;
        self.voxel = self.voxel.wrapping_add(self.axes[0].stride);
    }

    #[inline(always)]
    fn over_y(&mut self) {
        self.y += self.axes[1].by;
        self.voxel = self.voxel.wrapping_add(self.axes[1].stride);
    }

    #[inline(always)]
    fn over_z(&mut self) {
        self.z += self.axes[2].by;
        self.voxel = self.voxel.wrapping_add(self.axes[2].stride);
    }
}

impl Method for Step {
    fn new(grid: &Grid) -> Step {
        Step { sides: Sides::new(grid), lists: Lists::new(grid) }
    }

    fn trace(&mut self, ray: &Ray, densities: &[u16]) -> f64 {
        self.lists.used = 0;
        let way = self.sides.way(ray);
        if way.misses() {
            return 0.0;
        }
        let mut walk = Walk::new(&way);
        let (voxels, lengths) = self.lists.both();
        let mut sum = 0.0;
        let mut put = |at: usize, voxel: u32, length: f64| {
            voxels[at] = voxel;
            lengths[at] = length; // (30) and (35)
            sum += length * f64::from(densities[voxel as usize]); // (31) and (36)
        };
        let (mut at, mut now) = (0, way.enter);
        loop {
            let voxel = walk.voxel;
            let next = over_first(&mut walk);
            if way.ends(next) {
                put(at, voxel, way.leave - now);
                self.lists.used = at + 1;
                return sum;
            }
            put(at, voxel, next - now);
            at += 1;
            now = next;
        }
    }

    fn entries(&self) -> Vec<(u32, f64)> {
        self.lists.entries()
    }
}
