// A stand-in for the trait that converts a geometry already read into types of
// other crates. It can't influence reading: it is empty, and nothing implements
// it here.

/// Conversion from well-known text, with nothing in it.
pub trait TryFromWkt<T> {}
