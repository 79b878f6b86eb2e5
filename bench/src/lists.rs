//! The two lists that a float method fills.
use crate::scene::Grid;

/// As long as any ray needs; the first `used` places are those of the ray traced last.
pub struct Lists {
    voxels: Vec<u32>,
    lengths: Vec<f64>,
    pub used: usize,
}

impl Lists {
    pub fn new(grid: &Grid) -> Lists {
        let places = grid.n.iter().sum::<u32>() as usize + 1;
        Lists { voxels: vec![0; places], lengths: vec![0.0; places], used: 0 }
    }

    /// Both, and the compiler knows that they are as long as each other: one test of an index does for both.
    #[inline(always)]
    pub fn both(&mut self) -> (&mut [u32], &mut [f64]) {
        let places = self.voxels.len();
        (&mut self.voxels[..], &mut self.lengths[..places])
    }

    /// Equation (14).
    #[inline(always)]
    pub fn sum(&self, densities: &[u16]) -> f64 {
        let (voxels, lengths) = (&self.voxels[..self.used], &self.lengths[..self.used]);
        let mut sum = 0.0;
        for at in 0..voxels.len() {
            sum += lengths[at] * f64::from(densities[voxels[at] as usize]);
        }
        sum
    }

    pub fn entries(&self) -> Vec<(u32, f64)> {
        (0..self.used).map(|at| (self.voxels[at], self.lengths[at])).collect()
    }
}
