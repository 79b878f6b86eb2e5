//! The proved trace, through its C entry point.
use crate::scene::{Grid, Method, Ray};

#[rustfmt::skip]
extern "C" {
    fn ilvoresta_trace(
        nx: u32, ny: u32, nz: u32, dx: u32, dy: u32, dz: u32, bx: i32, by: i32, bz: i32,
        px: i32, py: i32, pz: i32, qx: i32, qy: i32, qz: i32,
        densities: *const u16, density_count: usize,
        voxels: *mut u32, voxel_count: usize,
        parts: *mut u64, part_count: usize,
        answer: *mut u64, answer_count: usize,
    ) -> u32;
}

/// The places of the answer list that are read here: ILVORESTA_ENTRIES, _D and _SUM of the header.
const ENTRIES: usize = 0;
const D: usize = 3;
const SUM: usize = 5;

pub struct Proved {
    grid: Grid,
    voxels: Vec<u32>,
    parts: Vec<u64>,
    answer: [u64; 6],
}

impl Proved {
    /// The numbers of the voxels of the ray traced last.
    pub fn voxels(&self) -> &[u32] {
        &self.voxels[..self.answer[ENTRIES] as usize]
    }
}

impl Method for Proved {
    fn new(grid: &Grid) -> Proved {
        let most = grid.n.iter().sum::<u32>() as usize - 2;
        Proved { grid: *grid, voxels: vec![0; most], parts: vec![0; most], answer: [0; 6] }
    }

    fn trace(&mut self, ray: &Ray, densities: &[u16]) -> f64 {
        let ([nx, ny, nz], [dx, dy, dz], [bx, by, bz]) = (self.grid.n, self.grid.d.map(|d| d as u32), self.grid.b);
        let ([px, py, pz], [qx, qy, qz]) = (ray.p, ray.q);
        // SAFETY: every list is valid for its own length, and none overlaps another.
        #[rustfmt::skip]
        let code = unsafe {
            ilvoresta_trace(
                nx, ny, nz, dx, dy, dz, bx, by, bz, px, py, pz, qx, qy, qz,
                densities.as_ptr(), densities.len(),
                self.voxels.as_mut_ptr(), self.voxels.len(),
                self.parts.as_mut_ptr(), self.parts.len(),
                self.answer.as_mut_ptr(), self.answer.len(),
            )
        };
        assert_eq!(code, 0, "a ray of the benchmark is refused");
        self.answer[SUM] as f64 / self.answer[D] as f64
    }

    fn entries(&self) -> Vec<(u32, f64)> {
        let fraction = |part: &u64| *part as f64 / self.answer[D] as f64;
        self.voxels().iter().zip(&self.parts).map(|(voxel, part)| (*voxel, fraction(part))).collect()
    }
}
