//! Stand-in for numeris: the few matrix operations that the source names.
//! The decomposition always fails, so no candidate goes past the solver that document 01 leaves out.

use std::ops::{Add, AddAssign, Div, Index, IndexMut, Mul, Neg, Sub};

/// What a component must be able to do.
pub trait Real:
    Copy + Default + Add<Output = Self> + Sub<Output = Self> + Mul<Output = Self> + Div<Output = Self> + Neg<Output = Self>
{
    fn root(self) -> Self;
    fn wide(self) -> f64;
    fn narrow(value: f64) -> Self;
}

impl Real for f32 {
    fn root(self) -> f32 {
        self.sqrt()
    }
    fn wide(self) -> f64 {
        f64::from(self)
    }
    fn narrow(value: f64) -> f32 {
        value as f32
    }
}

impl Real for f64 {
    fn root(self) -> f64 {
        self.sqrt()
    }
    fn wide(self) -> f64 {
        self
    }
    fn narrow(value: f64) -> f64 {
        value
    }
}

#[derive(Debug, Clone, Copy, PartialEq)]
pub struct Vector3<T>([T; 3]);

impl<T: Real> Vector3<T> {
    pub fn from_array(parts: [T; 3]) -> Self {
        Vector3(parts)
    }
    pub fn dot(&self, other: &Self) -> T {
        self.0[0] * other.0[0] + self.0[1] * other.0[1] + self.0[2] * other.0[2]
    }
    pub fn cross(&self, other: &Self) -> Self {
        let (a, b) = (self.0, other.0);
        Vector3([a[1] * b[2] - a[2] * b[1], a[2] * b[0] - a[0] * b[2], a[0] * b[1] - a[1] * b[0]])
    }
    pub fn norm(&self) -> T {
        self.dot(self).root()
    }
    pub fn outer(&self, other: &Self) -> Matrix3<T> {
        Matrix3(self.0.map(|a| other.0.map(|b| a * b)))
    }
}

impl<T> Index<usize> for Vector3<T> {
    type Output = T;
    fn index(&self, at: usize) -> &T {
        &self.0[at]
    }
}

impl<T: Real> Div<T> for Vector3<T> {
    type Output = Self;
    fn div(self, by: T) -> Self {
        Vector3(self.0.map(|part| part / by))
    }
}

#[derive(Debug, Clone, Copy, PartialEq)]
pub struct Matrix3<T>([[T; 3]; 3]);

/// What a decomposition would hold.
pub struct Parts<T> {
    u: Matrix3<T>,
    vt: Matrix3<T>,
}

impl<T> Parts<T> {
    pub fn u(&self) -> &Matrix3<T> {
        &self.u
    }
    pub fn vt(&self) -> &Matrix3<T> {
        &self.vt
    }
}

impl<T: Real> Matrix3<T> {
    pub fn zeros() -> Self {
        Matrix3([[T::default(); 3]; 3])
    }
    pub fn transpose(&self) -> Self {
        Matrix3(std::array::from_fn(|i| std::array::from_fn(|j| self.0[j][i])))
    }
    pub fn det(&self) -> T {
        let [a, b, c] = self.0.map(Vector3);
        a.dot(&b.cross(&c))
    }
    pub fn cast<U: Real>(&self) -> Matrix3<U> {
        Matrix3(self.0.map(|row| row.map(|part| U::narrow(part.wide()))))
    }
    pub fn svd(&self) -> Result<Parts<T>, ()> {
        Err(())
    }
}

impl<T: Real> AddAssign for Matrix3<T> {
    fn add_assign(&mut self, other: Self) {
        *self = Matrix3(std::array::from_fn(|i| std::array::from_fn(|j| self.0[i][j] + other.0[i][j])));
    }
}

impl<T: Real> Mul for Matrix3<T> {
    type Output = Self;
    fn mul(self, other: Self) -> Self {
        let columns = other.transpose().0.map(Vector3);
        Matrix3(self.0.map(|row| std::array::from_fn(|j| Vector3(row).dot(&columns[j]))))
    }
}

impl<T: Real> Mul<Vector3<T>> for Matrix3<T> {
    type Output = Vector3<T>;
    fn mul(self, other: Vector3<T>) -> Vector3<T> {
        Vector3(self.0.map(|row| Vector3(row).dot(&other)))
    }
}

impl<T> Index<(usize, usize)> for Matrix3<T> {
    type Output = T;
    fn index(&self, at: (usize, usize)) -> &T {
        &self.0[at.0][at.1]
    }
}

impl<T> IndexMut<(usize, usize)> for Matrix3<T> {
    fn index_mut(&mut self, at: (usize, usize)) -> &mut T {
        &mut self.0[at.0][at.1]
    }
}

#[derive(Debug, Clone, Copy, PartialEq)]
pub struct Matrix2<T>([[T; 2]; 2]);

impl<T> Index<(usize, usize)> for Matrix2<T> {
    type Output = T;
    fn index(&self, at: (usize, usize)) -> &T {
        &self.0[at.0][at.1]
    }
}

#[derive(Debug, Clone, Copy, PartialEq)]
pub struct Quaternion<T>([T; 4]);

impl<T: Real> Quaternion<T> {
    pub fn from_rotation_matrix(_matrix: &Matrix3<T>) -> Self {
        Quaternion([T::default(); 4])
    }
}
