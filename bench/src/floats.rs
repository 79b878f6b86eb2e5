//! What both float methods begin with: the array in floats, and the way of a ray through it. Equations are numbered as in Siddon's paper.
use crate::scene::{Grid, Ray};

/// A plane this close before αmax, or beyond it, is the face where the ray goes out. Rounding moves an α by less than a tenth of this.
const END: f64 = 1e-10;

/// One axis of the array.
struct Side {
    /// The near plane, and the far one.
    b: f64,
    far: f64,
    d: f64,
    /// 1 over d: a product is faster than the division of equation (12).
    inverse: f64,
    last: f64,
    /// What one voxel further adds to a voxel's number, and what the last voxel adds.
    stride: u32,
    top: u32,
}

/// One axis as a ray meets it: planes and voxels are counted in the ray's own direction, from the face that it meets first.
pub struct Axis {
    /// The α of that face, and of the one met last. Where the ray is still, 0 and 1; 0 and 0 if it is beside the array.
    near: f64,
    far: f64,
    /// From one plane to the next, by equation (7). Where the ray is still that is infinite, and no plane is ahead.
    pub by: f64,
    /// 1 over it.
    rate: f64,
    last: f64,
    /// What one voxel further adds to a voxel's number, modulo 2^32, and what the first voxel adds.
    pub stride: u32,
    first: u32,
}

/// The array in floats.
pub struct Sides([Side; 3]);

/// The way of a ray through the array.
pub struct Way {
    pub axes: [Axis; 3],
    /// αmin and αmax.
    pub enter: f64,
    pub leave: f64,
    /// The number of the voxel that is the first on every axis.
    first: u32,
}

impl Sides {
    pub fn new(grid: &Grid) -> Sides {
        let strides = [1, grid.n[0], grid.n[0] * grid.n[1]];
        Sides([0, 1, 2].map(|a| {
            let (b, d, last, stride) = (f64::from(grid.b[a]), f64::from(grid.d[a]), grid.n[a] - 1, strides[a]);
            let far = b + f64::from(grid.n[a]) * d;
            Side { b, far, d, inverse: 1.0 / d, last: f64::from(last), stride, top: last * stride }
        }))
    }

    /// Axis by axis: a closure over the three is not compiled into its caller, and costs a short ray a third of its time.
    #[inline(always)]
    pub fn way(&self, ray: &Ray) -> Way {
        let x = self.0[0].axis(ray.p[0], ray.q[0]);
        let y = self.0[1].axis(ray.p[1], ray.q[1]);
        let z = self.0[2].axis(ray.p[2], ray.q[2]);
        let enter = most(most(x.near, y.near), most(z.near, 0.0)); // (5)
        let leave = least(least(x.far, y.far), least(z.far, 1.0));
        let first = x.first + y.first + z.first;
        Way { axes: [x, y, z], enter, leave, first }
    }
}

impl Side {
    /// Without a branch on the direction, which no processor foresees. The choice of `still` comes last, or the compiler builds the axis in
    /// memory, and a short ray waits for that.
    #[inline(always)]
    fn axis(&self, p: i32, q: i32) -> Axis {
        let (from, step) = (f64::from(p), f64::from(q - p));
        let per = 1.0 / step;
        let (one, other) = ((self.b - from) * per, (self.far - from) * per); // (4)
        let down = ((q - p) >> 31) as u32; // every bit set, or none
        let moving = Axis {
            near: least(one, other),
            far: most(one, other),
            by: self.d * per.abs(),
            rate: step.abs() * self.inverse,
            last: self.last,
            stride: (self.stride ^ down).wrapping_sub(down),
            first: self.top & down,
        };
        if p == q {
            self.still(from)
        } else {
            moving
        }
    }

    /// A plane belongs to the voxel above it, and the far one to the last: here the division must be a true one.
    #[inline(always)]
    fn still(&self, p: f64) -> Axis {
        let far = if self.b <= p && p <= self.far { 1.0 } else { 0.0 };
        let index = least((p - self.b) / self.d, self.last) as u32;
        Axis { near: 0.0, far, by: f64::INFINITY, rate: 0.0, last: 0.0, stride: 0, first: index * self.stride }
    }
}

impl Axis {
    /// The voxel at an α from αmin to αmax, by equation (12).
    #[inline(always)]
    pub fn index(&self, alpha: f64) -> u32 {
        let past = least((alpha - self.near) * self.rate, self.last);
        // SAFETY: `least` leaves nothing above the last voxel, and no NaN; α is before the near face by rounding at most, so this is above
        // -1 and is cut to 0. A checked cast costs the merge a sixth.
        unsafe { past.to_int_unchecked::<i32>() as u32 }
    }

    /// The α of a plane, by equations (3) and (4).
    #[inline(always)]
    pub fn alpha(&self, plane: u32) -> f64 {
        self.near + f64::from(plane as i32) * self.by
    }
}

impl Way {
    pub fn misses(&self) -> bool {
        self.leave <= self.enter
    }

    /// Whether a plane with this α is where the ray ends or goes out.
    #[inline(always)]
    pub fn ends(&self, alpha: f64) -> bool {
        alpha >= self.leave - END
    }

    /// The number of the voxel at an α from αmin to αmax.
    #[inline(always)]
    pub fn voxel(&self, alpha: f64) -> u32 {
        let [x, y, z] = &self.axes;
        let on_x = x.index(alpha).wrapping_mul(x.stride);
        let on_y = y.index(alpha).wrapping_mul(y.stride);
        let on_z = z.index(alpha).wrapping_mul(z.stride);
        self.first.wrapping_add(on_x).wrapping_add(on_y).wrapping_add(on_z)
    }
}

/// One instruction each, which `f64::min` and `f64::max` are not, for what they promise of NaN.
#[inline(always)]
fn least(one: f64, other: f64) -> f64 {
    if one < other {
        one
    } else {
        other
    }
}

#[inline(always)]
fn most(one: f64, other: f64) -> f64 {
    if one > other {
        one
    } else {
        other
    }
}
