//! Stand-in for glam, which Debian does not package. On the path of parsing, exporting and building a vector only carries
//! its floats from the bytes into a record, so construction and field reads are all that it does. The operations that
//! clips use are here so that the sources compile; none is on that path, and each stops the program.

#[derive(Clone, Copy, Debug, PartialEq)]
pub struct Vec3A {
    pub x: f32,
    pub y: f32,
    pub z: f32,
}

impl Vec3A {
    pub const fn new(x: f32, y: f32, z: f32) -> Self {
        Self { x, y, z }
    }

    pub fn normalize(self) -> Self {
        off_the_path()
    }

    pub fn dot(self, _other: Self) -> f32 {
        off_the_path()
    }

    pub fn length(self) -> f32 {
        off_the_path()
    }
}

impl std::ops::Mul<f32> for Vec3A {
    type Output = Self;

    fn mul(self, _factor: f32) -> Self {
        off_the_path()
    }
}

#[derive(Clone, Copy, Debug, PartialEq)]
pub struct Quat {
    pub x: f32,
    pub y: f32,
    pub z: f32,
    pub w: f32,
}

impl Quat {
    pub const fn from_xyzw(x: f32, y: f32, z: f32, w: f32) -> Self {
        Self { x, y, z, w }
    }

    pub fn is_normalized(self) -> bool {
        off_the_path()
    }

    pub fn normalize(self) -> Self {
        off_the_path()
    }

    pub fn slerp(self, _end: Self, _s: f32) -> Self {
        off_the_path()
    }
}

fn off_the_path() -> ! {
    panic!("the stand-in for glam only carries values")
}
