//! Reads each line of standard input with the Rust and prints what the Rust's writer makes of
//! it; `panics` where it panics, and `refused` with the reader's message where it isn't read.

use std::io::{self, BufRead};
use std::panic;
use std::str::FromStr;
use wkt::Wkt;

fn main() -> io::Result<()> {
    panic::set_hook(Box::new(|_| ()));
    for line in io::stdin().lock().lines() {
        let text = line?;
        match Wkt::<f64>::from_str(&text) {
            Err(message) => println!("{text} | refused {message}"),
            Ok(geometry) => match panic::catch_unwind(|| geometry.to_string()) {
                Ok(written) => println!("{text} | {written}"),
                Err(_) => println!("{text} | panics"),
            },
        }
    }
    Ok(())
}
