//! A stand-in for the crate `num-traits`: the three traits that wkt names.
//! It can't influence reading: the traits are empty, and wkt calls nothing of
//! them; a number is read by its type's `FromStr`, which the standard library has.

pub trait Num {}
pub trait NumCast {}
pub trait Float {}

impl Num for f64 {}
impl NumCast for f64 {}
impl Float for f64 {}
