//! num-complex as document 01, "Arithmetic under everything", has it, as far as the port uses it.
use std::iter::Sum;
use std::ops::{Add, Div, DivAssign, Mul, Neg, Sub, SubAssign};

#[derive(Debug, Clone, Copy, PartialEq)]
pub struct Complex64 {
    pub re: f64,
    pub im: f64,
}

impl Complex64 {
    pub const fn new(re: f64, im: f64) -> Self {
        Self { re, im }
    }

    #[inline]
    pub fn conj(&self) -> Self {
        Self::new(self.re, -self.im)
    }

    /// The correctly rounded norm.
    #[cfg(feature = "exact")]
    pub fn norm(&self) -> f64 {
        norm::norm(self.re, self.im)
    }

    /// The platform's hypot.
    #[cfg(not(feature = "exact"))]
    #[inline]
    pub fn norm(&self) -> f64 {
        self.re.hypot(self.im)
    }
}

#[cfg(any(feature = "exact", test))]
mod norm;

impl From<f64> for Complex64 {
    #[inline]
    fn from(re: f64) -> Self {
        Self::new(re, 0.0)
    }
}

impl Add for Complex64 {
    type Output = Self;
    #[inline]
    fn add(self, o: Self) -> Self {
        Self::new(self.re + o.re, self.im + o.im)
    }
}

impl Sub for Complex64 {
    type Output = Self;
    #[inline]
    fn sub(self, o: Self) -> Self {
        Self::new(self.re - o.re, self.im - o.im)
    }
}

impl Mul for Complex64 {
    type Output = Self;
    #[inline]
    fn mul(self, o: Self) -> Self {
        Self::new(self.re * o.re - self.im * o.im, self.re * o.im + self.im * o.re)
    }
}

impl Mul<&Complex64> for Complex64 {
    type Output = Self;
    #[inline]
    fn mul(self, o: &Self) -> Self {
        self * *o
    }
}

impl Neg for Complex64 {
    type Output = Self;
    #[inline]
    fn neg(self) -> Self {
        Self::new(-self.re, -self.im)
    }
}

impl Sum for Complex64 {
    #[inline]
    fn sum<I: Iterator<Item = Self>>(terms: I) -> Self {
        terms.fold(Self::new(0.0, 0.0), |total, term| total + term)
    }
}

// Division and -= serve `inverse` alone, which is left behind.
impl Div for Complex64 {
    type Output = Self;
    #[inline]
    fn div(self, o: Self) -> Self {
        let size = o.re * o.re + o.im * o.im;
        Self::new((self.re * o.re + self.im * o.im) / size, (self.im * o.re - self.re * o.im) / size)
    }
}

impl Div<f64> for Complex64 {
    type Output = Self;
    #[inline]
    fn div(self, o: f64) -> Self {
        Self::new(self.re / o, self.im / o)
    }
}

impl DivAssign for Complex64 {
    #[inline]
    fn div_assign(&mut self, o: Self) {
        *self = *self / o
    }
}

impl DivAssign<f64> for Complex64 {
    #[inline]
    fn div_assign(&mut self, o: f64) {
        *self = *self / o
    }
}

impl SubAssign for Complex64 {
    #[inline]
    fn sub_assign(&mut self, o: Self) {
        *self = *self - o
    }
}
