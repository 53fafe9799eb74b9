//! Stands for the crate `stable_flight`: the vectors, quaternions, commands and mixer rows the
//! originals name, with document 01's formulas. f32, one rounding for each operation, nothing
//! fused, left to right.

use core::iter::Sum;
use core::ops::{Add, AddAssign, Div, Mul, Sub};

/// Gravity, in m/s².
pub const GRAVITY: f32 = 9.80665;

/// A vector of three numbers, on the NED world axes or the FRD body axes.
#[derive(Debug, Clone, Copy, Default, PartialEq)]
pub struct Vec3 {
    pub x: f32,
    pub y: f32,
    pub z: f32,
}

impl Vec3 {
    pub const fn new(x: f32, y: f32, z: f32) -> Self {
        Vec3 { x, y, z }
    }

    pub const fn zeros() -> Self {
        Vec3::new(0.0, 0.0, 0.0)
    }

    pub fn map(self, f: impl Fn(f32) -> f32) -> Self {
        Vec3::new(f(self.x), f(self.y), f(self.z))
    }

    pub fn component_mul(&self, other: &Vec3) -> Self {
        Vec3::new(self.x * other.x, self.y * other.y, self.z * other.z)
    }

    pub fn component_div(&self, other: &Vec3) -> Self {
        Vec3::new(self.x / other.x, self.y / other.y, self.z / other.z)
    }

    pub fn cross(&self, other: &Vec3) -> Self {
        Vec3::new(
            self.y * other.z - self.z * other.y,
            self.z * other.x - self.x * other.z,
            self.x * other.y - self.y * other.x,
        )
    }

    /// (x² + y²) + z².
    pub fn norm_squared(&self) -> f32 {
        self.x * self.x + self.y * self.y + self.z * self.z
    }

    pub fn norm(&self) -> f32 {
        self.norm_squared().sqrt()
    }
}

impl Add for Vec3 {
    type Output = Vec3;
    fn add(self, other: Vec3) -> Vec3 {
        Vec3::new(self.x + other.x, self.y + other.y, self.z + other.z)
    }
}

impl Sub for Vec3 {
    type Output = Vec3;
    fn sub(self, other: Vec3) -> Vec3 {
        Vec3::new(self.x - other.x, self.y - other.y, self.z - other.z)
    }
}

impl AddAssign for Vec3 {
    fn add_assign(&mut self, other: Vec3) {
        *self = *self + other;
    }
}

impl Mul<f32> for Vec3 {
    type Output = Vec3;
    fn mul(self, by: f32) -> Vec3 {
        self.map(|number| number * by)
    }
}

impl Mul<f32> for &Vec3 {
    type Output = Vec3;
    fn mul(self, by: f32) -> Vec3 {
        *self * by
    }
}

impl Div<f32> for Vec3 {
    type Output = Vec3;
    fn div(self, by: f32) -> Vec3 {
        self.map(|number| number / by)
    }
}

impl Sum for Vec3 {
    /// In order, from +0.
    fn sum<I: Iterator<Item = Vec3>>(vectors: I) -> Vec3 {
        vectors.fold(Vec3::zeros(), |sum, vector| sum + vector)
    }
}

/// One command for every motor and servo slot.
#[derive(Debug, Clone, Copy, Default, PartialEq)]
pub struct ActuatorCommand {
    pub motors: [f32; ActuatorCommand::SLOTS],
    pub servos: [f32; ActuatorCommand::SLOTS],
}

impl ActuatorCommand {
    pub const SLOTS: usize = 8;
}

pub mod mixers {
    /// What a mixer row drives.
    #[derive(Debug, Clone, Copy, PartialEq)]
    pub enum Slot {
        Motor(u8),
        Servo(u8),
    }

    /// One row of a mixer: a slot and its roll, pitch and yaw factors.
    #[derive(Debug, Clone, Copy, PartialEq)]
    pub struct MixRow {
        slot: Slot,
        factors: [f32; 3],
    }

    impl MixRow {
        pub const fn new(slot: Slot, factors: [f32; 3]) -> Self {
            MixRow { slot, factors }
        }

        pub fn slot(&self) -> Slot {
            self.slot
        }

        pub fn roll(&self) -> f32 {
            self.factors[0]
        }

        pub fn pitch(&self) -> f32 {
            self.factors[1]
        }

        pub fn yaw(&self) -> f32 {
            self.factors[2]
        }
    }

    /// A mixer: its rows in order.
    #[derive(Debug, Clone, PartialEq)]
    pub struct TableMixer<const N: usize> {
        rows: [MixRow; N],
    }

    impl<const N: usize> TableMixer<N> {
        pub const fn new(rows: [MixRow; N]) -> Self {
            TableMixer { rows }
        }

        pub fn rows(&self) -> &[MixRow; N] {
            &self.rows
        }
    }
}

pub mod nalgebra {
    use core::ops::{Mul, MulAssign};

    use crate::Vec3;

    /// A squared norm up to this turns nothing: 2^-46.
    const NO_TURN: f32 = f32::from_bits((127 - 46) << 23);

    /// A rotation from the FRD body axes to the NED world axes: w and the vector part.
    #[derive(Debug, Clone, Copy, PartialEq)]
    pub struct UnitQuaternion<T> {
        pub w: T,
        pub i: T,
        pub j: T,
        pub k: T,
    }

    impl UnitQuaternion<f32> {
        pub const fn identity() -> Self {
            UnitQuaternion {
                w: 1.0,
                i: 0.0,
                j: 0.0,
                k: 0.0,
            }
        }

        fn vector(&self) -> Vec3 {
            Vec3::new(self.i, self.j, self.k)
        }

        /// ((i² + j²) + k²) + w².
        pub fn norm_squared(&self) -> f32 {
            self.i * self.i + self.j * self.j + self.k * self.k + self.w * self.w
        }

        /// The turn by `axis`'s length, in rad, about it.
        pub fn from_scaled_axis(axis: Vec3) -> Self {
            let half = axis * 0.5;
            let squared = half.norm_squared();
            if squared <= NO_TURN {
                return Self::identity();
            }
            let n = squared.sqrt();
            let vector = half * (libm::sinf(n) / n);
            UnitQuaternion {
                w: libm::cosf(n),
                i: vector.x,
                j: vector.y,
                k: vector.z,
            }
        }

        pub fn inverse_transform_vector(&self, v: &Vec3) -> Vec3 {
            let u = self.vector();
            rotate(self.w, Vec3::new(-u.x, -u.y, -u.z), *v)
        }

        pub fn renormalize_fast(&mut self) {
            let by = 0.5 * (3.0 - self.norm_squared());
            self.w *= by;
            self.i *= by;
            self.j *= by;
            self.k *= by;
        }
    }

    /// `v` turned by the unit quaternion of `w` and vector part `u`.
    fn rotate(w: f32, u: Vec3, v: Vec3) -> Vec3 {
        let t = u.cross(&v) * 2.0;
        t * w + u.cross(&t) + v
    }

    impl Mul<Vec3> for UnitQuaternion<f32> {
        type Output = Vec3;
        fn mul(self, v: Vec3) -> Vec3 {
            rotate(self.w, self.vector(), v)
        }
    }

    impl Mul for UnitQuaternion<f32> {
        type Output = Self;
        fn mul(self, o: Self) -> Self {
            UnitQuaternion {
                w: self.w * o.w - self.i * o.i - self.j * o.j - self.k * o.k,
                i: self.w * o.i + self.i * o.w + self.j * o.k - self.k * o.j,
                j: self.w * o.j - self.i * o.k + self.j * o.w + self.k * o.i,
                k: self.w * o.k + self.i * o.j - self.j * o.i + self.k * o.w,
            }
        }
    }

    impl MulAssign for UnitQuaternion<f32> {
        fn mul_assign(&mut self, other: Self) {
            *self = *self * other;
        }
    }
}
