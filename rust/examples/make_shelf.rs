//! Makes a folder of stored files of version 1, drawn from a seed, for tools/test-shelf: `make_shelf FOLDER COUNT SEED`.
//!
//! All kinds and dimensions are among them. Most have less than a kilobyte, every 50th up to some tens of them, and
//! every 1,000th has about as many bytes, numbers or nodes as version 1 takes.
use doorhollow::Version;
use std::error::Error;
use std::path::Path;
use std::process::ExitCode;
use std::{env, fs};

fn main() -> ExitCode {
    let arguments: Vec<String> = env::args().skip(1).collect();
    let made = match arguments.as_slice() {
        [folder, count, seed] => make_shelf(folder.as_ref(), count, seed),
        _ => Err("usage: make_shelf FOLDER COUNT SEED".into()),
    };
    match made {
        Ok(()) => ExitCode::SUCCESS,
        Err(error) => {
            eprintln!("make_shelf: {error}");
            ExitCode::FAILURE
        }
    }
}

fn make_shelf(folder: &Path, count: &str, seed: &str) -> Result<(), Box<dyn Error>> {
    let (count, mut draw): (usize, _) = (count.parse()?, Draw(seed.parse()?));
    fs::create_dir(folder)?;
    for index in 0..count {
        let text = match index {
            index if index % 1_000 == 999 => large(&mut draw, index / 1_000),
            index if index % 50 == 49 => geometry(&mut draw, 60),
            _ => geometry(&mut draw, 8),
        };
        let bytes = doorhollow::read(&text)?.to_stored_as(Version::One)?;
        let front = draw.one_of(&["shape-", "Küste ", "map."]);
        fs::write(folder.join(format!("{front}{index:05}")), bytes)?;
    }
    Ok(())
}

/// Numbers from a seed, by the method splitmix64.
struct Draw(u64);

impl Draw {
    fn next(&mut self) -> u64 {
        self.0 = self.0.wrapping_add(0x9E37_79B9_7F4A_7C15);
        let mixed = (self.0 ^ self.0 >> 30).wrapping_mul(0xBF58_476D_1CE4_E5B9);
        let mixed = (mixed ^ mixed >> 27).wrapping_mul(0x94D0_49BB_1331_11EB);
        mixed ^ mixed >> 31
    }

    fn below(&mut self, bound: usize) -> usize {
        (self.next() % bound as u64) as usize
    }

    fn one_of<T: Copy>(&mut self, all: &[T]) -> T {
        all[self.below(all.len())]
    }
}

/// The shapes that are as large as version 1 takes, each with another limit.
fn large(draw: &mut Draw, turn: usize) -> String {
    match turn % 3 {
        // 65,534 numbers of 13 bytes: 1,048,559 stored bytes
        0 => {
            let mut digits = || 1_000_000_000_000 + draw.next() % 1_000_000_000_000;
            let all: Vec<String> = (0..32_767)
                .map(|_| format!("{} {}", digits(), digits()))
                .collect();
            format!("LINESTRING({})", all.join(","))
        }
        // 65,535 nodes
        1 => format!(
            "GEOMETRYCOLLECTION({}POINT EMPTY)",
            "POLYGON EMPTY,".repeat(65_533)
        ),
        // 16 numbers, and 1,048,576 stored bytes: 15 of them aren't the numbers', and 3 before each
        _ => {
            let digits = |index: usize| "7".repeat((1_048_576 - 15 - 16 * 3 + index) / 16);
            let all: Vec<String> = (0..8)
                .map(|pair| format!("{} {}", digits(2 * pair), digits(2 * pair + 1)))
                .collect();
            format!("LINESTRING({})", all.join(","))
        }
    }
}

/// A shape of any kind and dimension, whose parts have up to so many parts each.
fn geometry(draw: &mut Draw, most: usize) -> String {
    let (dimension, width) = draw.one_of(&[("", 2), (" Z", 3), (" M", 3), (" ZM", 4)]);
    let (kind, body) = match draw.below(7) {
        0 => ("POINT", listed(draw, 1, |draw| coordinate(draw, width))),
        1 => ("LINESTRING", line(draw, most, width)),
        2 => ("POLYGON", lines(draw, most, width)),
        3 => ("MULTIPOINT", line(draw, most, width)),
        4 => ("MULTILINESTRING", lines(draw, most, width)),
        5 => (
            "MULTIPOLYGON",
            listed(draw, most / 4, |draw| lines(draw, most / 4, width)),
        ),
        _ => (
            "GEOMETRYCOLLECTION",
            listed(draw, most / 2, |draw| geometry(draw, most / 2)),
        ),
    };
    format!("{kind}{dimension} {body}")
}

fn lines(draw: &mut Draw, most: usize, width: usize) -> String {
    listed(draw, most / 2, |draw| line(draw, most, width))
}

fn line(draw: &mut Draw, most: usize, width: usize) -> String {
    listed(draw, most, |draw| coordinate(draw, width))
}

/// Up to so many parts in parentheses, or EMPTY.
fn listed(draw: &mut Draw, most: usize, mut part: impl FnMut(&mut Draw) -> String) -> String {
    let count = draw.below(most + 1);
    if count == 0 {
        return "EMPTY".to_string();
    }
    let parts: Vec<String> = (0..count).map(|_| part(draw)).collect();
    format!("({})", parts.join(","))
}

fn coordinate(draw: &mut Draw, width: usize) -> String {
    let numbers: Vec<String> = (0..width).map(|_| number(draw)).collect();
    numbers.join(" ")
}

fn number(draw: &mut Draw) -> String {
    let (whole, part) = (draw.below(100_000), draw.below(10_000_000));
    match draw.below(8) {
        0 => format!("{}", whole % 10),
        1 => format!("-{whole}"),
        2 => format!("+{whole}.{part}e-{}", whole % 10),
        3 => format!(".{part}"),
        4 => draw
            .one_of(&["+inf", "-Infinity", "+nan", "007", "1E400"])
            .to_string(),
        _ => format!("{}.{part:07}", whole % 180),
    }
}
