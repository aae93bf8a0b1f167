// A stand-in for the macro `wkt!`, which builds geometries in Rust source.
// It can't influence reading: no function that reads uses the macro.
