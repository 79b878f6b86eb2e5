//! The floor: the time to read the densities of voxels that are known already, about the least that a trace which sums them takes.
use crate::proved::Proved;
use crate::scene::{Method, Ray};
use std::hint::black_box;
use std::time::Instant;

pub struct Floor {
    rays: usize,
    voxels: Vec<u32>,
}

impl Floor {
    pub fn new(proved: &mut Proved, rays: &[Ray], densities: &[u16]) -> Floor {
        let mut voxels = Vec::new();
        for ray in rays {
            proved.trace(ray, densities);
            voxels.extend_from_slice(proved.voxels());
        }
        Floor { rays: rays.len(), voxels }
    }

    pub fn entries(&self) -> f64 {
        self.voxels.len() as f64 / self.rays as f64
    }

    /// Nanoseconds for the voxels of one ray.
    pub fn per_ray(&self, densities: &[u16]) -> f64 {
        let began = Instant::now();
        let mut sum = 0;
        for &voxel in &self.voxels {
            sum += u64::from(densities[voxel as usize]);
        }
        black_box(sum);
        began.elapsed().as_secs_f64() * 1e9 / self.rays as f64
    }
}
