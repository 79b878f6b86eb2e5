//! What is traced, and what a way to trace it is. The unit is 0.1 mm.

/// Half the side of every array here, which lies about the origin. All ends of rays stay within 16384, the limit of the proved code.
pub const FACE: i32 = 12_800;

/// An array of voxels: counts, spacings and first planes.
#[derive(Clone, Copy)]
pub struct Grid {
    pub n: [u32; 3],
    pub d: [i32; 3],
    pub b: [i32; 3],
}

impl Grid {
    /// n voxels each way; n divides the side.
    pub fn cube(n: u32) -> Grid {
        Grid { n: [n; 3], d: [2 * FACE / n as i32; 3], b: [-FACE; 3] }
    }

    pub fn voxels(&self) -> u32 {
        self.n[0] * self.n[1] * self.n[2]
    }
}

pub struct Ray {
    pub p: [i32; 3],
    pub q: [i32; 3],
}

/// A way to trace rays through one grid, with lists of its own that are made once.
pub trait Method {
    fn new(grid: &Grid) -> Self;

    /// Fills the lists, and answers the sum of length times density in units of the ray's length.
    fn trace(&mut self, ray: &Ray, densities: &[u16]) -> f64;

    /// The lists of the ray traced last: each voxel's number, and its length as a fraction of the ray's.
    fn entries(&self) -> Vec<(u32, f64)>;
}
