//! The turn that both float methods take at every stretch: over the plane that is met first.

/// The next plane on each axis.
pub trait Ahead {
    /// Its α; infinite where no plane is left.
    fn alphas(&self) -> (f64, f64, f64);

    /// Over it, to the one after it.
    fn over_x(&mut self);
    fn over_y(&mut self);
    fn over_z(&mut self);
}

/// Goes over the plane that is met first, or over several that are met at once, and answers its α.
#[inline(always)]
pub fn over_first(planes: &mut impl Ahead) -> f64 {
    let (x, y, z) = planes.alphas();
    if x < y {
        if x < z {
            planes.over_x();
            return x;
        }
        planes.over_z();
        if x == z {
            planes.over_x();
        }
        return z;
    }
    if y < z {
        planes.over_y();
        if x == y {
            planes.over_x();
        }
        return y;
    }
    planes.over_z();
    if y == z {
        planes.over_y();
        if x == z {
            planes.over_x();
        }
    }
    z
}
