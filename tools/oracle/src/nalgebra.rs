//! As much of nalgebra's vectors as the plane guidance uses, over document 01's stand-ins:
//! nalgebra is not among the published files. The shape (an array behind `SVector`, its parts
//! named through `Deref`) is nalgebra's, so that the published text needs no edit.

use std::ops::{Add, Deref, DerefMut, Mul, Sub};

#[derive(Clone, Copy, Debug, PartialEq)]
#[repr(transparent)]
pub struct SVector<T, const D: usize>([T; D]);

pub type Vector2<T> = SVector<T, 2>;
pub type Vector3<T> = SVector<T, 3>;

#[derive(Clone, Copy)]
#[repr(C)]
pub struct XY<T> {
    pub x: T,
    pub y: T,
}

#[derive(Clone, Copy)]
#[repr(C)]
pub struct XYZ<T> {
    pub x: T,
    pub y: T,
    pub z: T,
}

/// Holds a place in `VehicleState`; the plane guidance never reads it.
#[derive(Clone, Copy, Debug, Default, PartialEq)]
pub struct UnitQuaternion<T>(std::marker::PhantomData<T>);

macro_rules! named_parts {
    ($size:literal, $parts:ident) => {
        impl<T> Deref for SVector<T, $size> {
            type Target = $parts<T>;

            fn deref(&self) -> &$parts<T> {
                // Both are as many T in a row.
                unsafe { &*(self as *const Self as *const $parts<T>) }
            }
        }

        impl<T> DerefMut for SVector<T, $size> {
            fn deref_mut(&mut self) -> &mut $parts<T> {
                unsafe { &mut *(self as *mut Self as *mut $parts<T>) }
            }
        }
    };
}

named_parts!(2, XY);
named_parts!(3, XYZ);

impl<const D: usize> Default for SVector<f32, D> {
    fn default() -> Self {
        SVector([0.0; D])
    }
}

impl<T, const D: usize> SVector<T, D> {
    pub fn iter(&self) -> std::slice::Iter<'_, T> {
        self.0.iter()
    }
}

impl SVector<f32, 2> {
    pub fn new(x: f32, y: f32) -> Self {
        SVector([x, y])
    }

    pub fn norm(&self) -> f32 {
        arithmetic::length(self.x, self.y)
    }

    pub fn dot(&self, other: &Self) -> f32 {
        arithmetic::dot(self.x, self.y, other.x, other.y)
    }

    #[cfg_attr(counted, track_caller)]
    pub fn try_normalize(&self, floor: f32) -> Option<Self> {
        // A `map` would hide the caller's place from the counts.
        match arithmetic::normalise(self.x, self.y, floor) {
            Some((x, y)) => Some(SVector([x, y])),
            None => None,
        }
    }
}

impl SVector<f32, 3> {
    pub fn new(x: f32, y: f32, z: f32) -> Self {
        SVector([x, y, z])
    }

    pub fn xy(&self) -> Vector2<f32> {
        SVector([self.x, self.y])
    }
}

impl Add for SVector<f32, 2> {
    type Output = Self;

    fn add(self, other: Self) -> Self {
        SVector([self.x + other.x, self.y + other.y])
    }
}

impl Sub for SVector<f32, 2> {
    type Output = Self;

    fn sub(self, other: Self) -> Self {
        SVector([self.x - other.x, self.y - other.y])
    }
}

impl Mul<f32> for SVector<f32, 2> {
    type Output = Self;

    fn mul(self, factor: f32) -> Self {
        SVector([self.x * factor, self.y * factor])
    }
}
