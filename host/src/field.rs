//! The fields that coordinates are from.

use crate::constants::P;

/// A field: that of p elements, or that of the p² elements u + v·i.
#[derive(Debug, Clone, Copy, PartialEq, Eq)]
pub enum Field {
    /// A coordinate is one number.
    Prime,
    /// A coordinate is two numbers, u and then v.
    Quadratic,
}

impl Field {
    /// How many numbers an element is: 1, or 2 over p².
    pub fn numbers(self) -> usize {
        match self {
            Field::Prime => 1,
            Field::Quadratic => 2,
        }
    }

    /// How many elements the field has, rounded to a floating-point number.
    pub(crate) fn size(self) -> f64 {
        f64::from(P).powi(self.numbers() as i32)
    }
}
