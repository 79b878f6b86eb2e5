//! The rows of the tables: which rays, through how many voxels each way, of which densities.
use crate::rays::{Kind, Spread};
use crate::scene::{Grid, Ray};

#[derive(Clone, Copy)]
pub struct Row {
    pub kind: Kind,
    pub n: u32,
}

pub const ROWS: [Row; 8] = [
    Row { kind: Kind::Corner, n: 256 },
    Row { kind: Kind::Oblique, n: 256 },
    Row { kind: Kind::Oblique, n: 64 },
    Row { kind: Kind::Along, n: 256 },
    Row { kind: Kind::Fan, n: 256 },
    Row { kind: Kind::Fan, n: 64 },
    Row { kind: Kind::Short, n: 256 },
    Row { kind: Kind::Short, n: 64 },
];

/// How the cost grows with the array.
pub const GROWTH: [Row; 4] = [
    Row { kind: Kind::Oblique, n: 64 },
    Row { kind: Kind::Oblique, n: 128 },
    Row { kind: Kind::Oblique, n: 256 },
    Row { kind: Kind::Oblique, n: 512 },
];

impl Row {
    pub fn grid(&self) -> Grid {
        Grid::cube(self.n)
    }

    /// Equal ones for the corners; else spread ones, so that a wrong voxel shows in the sum.
    pub fn densities(&self) -> Vec<u16> {
        let spread = |voxel: u32| (voxel.wrapping_mul(0x9e37_79b1) >> 16) as u16;
        match self.kind {
            Kind::Corner => vec![2700; self.grid().voxels() as usize],
            _ => (0..self.grid().voxels()).map(spread).collect(),
        }
    }

    /// The rays that one method traces in one round: no other turn has the same, but for the corners.
    pub fn rays(&self, round: usize, method: usize) -> Vec<Ray> {
        self.kind.rays(&self.grid(), Spread::new(self.kind, self.n, round, method))
    }
}
