//! The boxes of request 2026-03, written down once more from document 02: the Rust has none.
//! Each X and Y is the exact decimal, in units, as a fraction of whole numbers; a node's box
//! has the lowest of all coordinates of its own and of its descendants, rounded down, and the
//! highest, rounded up. Each box is held to the sentence of document 02 in every run: it holds
//! the shape and is less than one unit too wide on each side.

use crate::exact::{Exact, Whole};
use crate::stores::{self, Clause, Node};
use driver::record::Rows;

pub const NOT_FINITE: u32 = 30;
pub const TOO_LARGE: u32 = 31;

/// Whether there are coordinates, low X, high X, low Y, high Y.
pub type Row = [i64; 5];
pub const ROW_PLACES: usize = 5;

/// A unit is one over ten to this power.
const UNIT_POWER: i64 = 7;
/// An exponent may be as far from 0 as this, either way.
const LARGEST_EXPONENT: i64 = 9_999;
/// In units, the largest size is ten to this power.
const LARGEST_SIZE_POWER: usize = 17;

/// What is wrong with an X or a Y.
#[derive(Clone, Copy, Debug, PartialEq, Eq)]
pub enum Fault {
    /// inf, infinity or nan
    NotFinite,
    Exponent,
    Size,
}

#[derive(Clone, Copy, Debug, PartialEq, Eq)]
pub enum Reason {
    IllFormed(Clause),
    NoRoom,
    X(Fault),
    Y(Fault),
}

#[derive(Clone, Copy, Debug, PartialEq, Eq)]
pub struct Refusal {
    pub reason: Reason,
    pub place: usize,
}

impl Refusal {
    pub fn number(&self) -> u32 {
        match self.reason {
            Reason::IllFormed(_) => stores::ILL_FORMED,
            Reason::NoRoom => stores::NO_ROOM,
            Reason::X(Fault::NotFinite) | Reason::Y(Fault::NotFinite) => NOT_FINITE,
            Reason::X(_) | Reason::Y(_) => TOO_LARGE,
        }
    }

    /// Tells refusals of one number apart.
    pub fn sort(&self) -> u32 {
        match self.reason {
            Reason::IllFormed(clause) => clause as u32,
            Reason::NoRoom => 0,
            Reason::X(fault) => fault as u32,
            Reason::Y(fault) => 8 + fault as u32,
        }
    }
}

/// X and Y in units.
type Place = [Exact; 2];

/// The rows of a table with so many places.
pub fn table(text: &[u8], rows: &Rows, places: usize) -> Result<Vec<Row>, Refusal> {
    let refused = |reason| Refusal { reason, place: 0 };
    let root = stores::tree(text, rows);
    let root = root.map_err(|clause| refused(Reason::IllFormed(clause)))?;
    let mut nodes = Vec::new();
    gather(&root, &mut nodes);
    if places / ROW_PLACES < nodes.len() {
        return Err(refused(Reason::NoRoom));
    }
    let measured = measured(&nodes, rows)?;
    let table = nodes.iter().map(|node| {
        let below = &measured[node.row..node.row + count(node)];
        let inside: Vec<&Place> = below.iter().flatten().collect();
        let row = row(&inside);
        assert!(fits(&row, &inside), "{row:?} isn't the box of {inside:?}");
        row
    });
    Ok(table.collect())
}

/// All nodes of a tree, in preorder: that of the rows.
fn gather<'tree, 'text>(node: &'tree Node<'text>, nodes: &mut Vec<&'tree Node<'text>>) {
    nodes.push(node);
    for child in node.children() {
        gather(child, nodes);
    }
}

/// How many nodes there are from this one down.
fn count(node: &Node) -> usize {
    let children = node.children().iter();
    1 + children.map(count).sum::<usize>()
}

/// The coordinates of each node of its own, or the first X or Y at fault.
fn measured(nodes: &[&Node], rows: &Rows) -> Result<Vec<Vec<Place>>, Refusal> {
    let mut starts = rows.numbers.iter().step_by(2);
    let mut place = |numbers: &Vec<&[u8]>| {
        // Z and M have rows too.
        let starts: Vec<&u32> = starts.by_ref().take(numbers.len()).collect();
        let in_units = |axis: usize, reason: fn(Fault) -> Reason| {
            units(numbers[axis]).map_err(|fault| Refusal {
                reason: reason(fault),
                place: *starts[axis] as usize,
            })
        };
        Ok([in_units(0, Reason::X)?, in_units(1, Reason::Y)?])
    };
    let places = nodes.iter().map(|node| {
        let coordinates = node.coordinates().iter();
        coordinates.map(&mut place).collect()
    });
    places.collect()
}

/// The exact decimal of a number's text, in units.
pub fn units(lexeme: &[u8]) -> Result<Exact, Fault> {
    let (is_negative, unsigned) = signed(lexeme);
    if unsigned[0].is_ascii_alphabetic() {
        return Err(Fault::NotFinite);
    }
    let (mantissa, exponent) = split(unsigned, b"eE");
    let (whole, decimals) = split(mantissa, b".");
    let exponent = written_exponent(exponent).ok_or(Fault::Exponent)?;
    let digits = Whole::of(&[whole, decimals].concat());
    let power = exponent - decimals.len() as i64 + UNIT_POWER;
    let exact = Exact::new(is_negative, digits, power);
    let largest = Exact::new(false, Whole::ten_to(LARGEST_SIZE_POWER), 0);
    match exact.size() > largest {
        true => Err(Fault::Size),
        false => Ok(exact),
    }
}

/// Whether there is a minus, and what follows the sign.
fn signed(text: &[u8]) -> (bool, &[u8]) {
    match text {
        [b'-', rest @ ..] => (true, rest),
        [b'+', rest @ ..] => (false, rest),
        _ => (false, text),
    }
}

/// What stands before the first of these bytes, and what behind it.
fn split<'text>(text: &'text [u8], at: &[u8]) -> (&'text [u8], &'text [u8]) {
    match text.iter().position(|byte| at.contains(byte)) {
        Some(place) => (&text[..place], &text[place + 1..]),
        None => (text, &[]),
    }
}

/// Nothing where it is too far from 0. No text is no exponent, which is one of 0.
fn written_exponent(text: &[u8]) -> Option<i64> {
    let (is_negative, digits) = signed(text);
    let size = Whole::of(digits).value();
    let size = size.filter(|size| *size <= LARGEST_EXPONENT)?;
    Some(if is_negative { -size } else { size })
}

fn row(inside: &[&Place]) -> Row {
    let low = |axis: usize| {
        let lowest = inside.iter().map(|place| &place[axis]).min();
        lowest.and_then(Exact::floor)
    };
    let high = |axis: usize| {
        let highest = inside.iter().map(|place| &place[axis]).max();
        highest.and_then(Exact::ceiling)
    };
    match (low(0), high(0), low(1), high(1)) {
        (Some(low_x), Some(high_x), Some(low_y), Some(high_y)) => [1, low_x, high_x, low_y, high_y],
        _ => [0; ROW_PLACES],
    }
}

/// Whether the box holds the shape and is less than one unit too wide on each side, which
/// leaves no choice of the box; five zeros without a shape.
fn fits(row: &Row, inside: &[&Place]) -> bool {
    let [has_coordinates, low_x, high_x, low_y, high_y] = *row;
    if inside.is_empty() {
        return *row == [0; ROW_PLACES];
    }
    let fits_axis = |axis: usize, low: i64, high: i64| {
        let numbers = || inside.iter().map(|place| &place[axis]);
        let (lowest, highest) = (Exact::of(low), Exact::of(high));
        let (above_low, below_high) = (Exact::of(low + 1), Exact::of(high - 1));
        numbers().all(|number| lowest <= *number && *number <= highest)
            && numbers().any(|number| *number < above_low)
            && numbers().any(|number| *number > below_high)
    };
    has_coordinates == 1 && fits_axis(0, low_x, high_x) && fits_axis(1, low_y, high_y)
}

#[cfg(test)]
mod tests {
    use super::*;
    use crate::store_cases;

    const LARGEST: i64 = 100_000_000_000_000_000;

    /// Low and high of a number by itself.
    fn both(text: &str) -> Result<(i64, i64), Fault> {
        assert!(stores::is_lexeme(text.as_bytes()), "{text}");
        let exact = units(text.as_bytes())?;
        let low = exact.floor().expect("it isn't too large");
        let high = exact.ceiling().expect("it isn't too large");
        assert!(fits(&[1, low, high, low, high], &[&[exact.clone(), exact]]));
        Ok((low, high))
    }

    fn check(cases: &[(&str, i64, i64)]) {
        for (text, low, high) in cases {
            assert_eq!(both(text), Ok((*low, *high)), "{text}");
        }
    }

    #[test]
    fn signs_points_and_zeros() {
        check(&[
            ("0", 0, 0),
            ("-0", 0, 0),
            ("-0.00e-5", 0, 0),
            ("+4", 40_000_000, 40_000_000),
            ("-4", -40_000_000, -40_000_000),
            (".5", 5_000_000, 5_000_000),
            ("5.", 50_000_000, 50_000_000),
            ("-.5", -5_000_000, -5_000_000),
            ("007", 70_000_000, 70_000_000),
            ("00000000000000000000.5", 5_000_000, 5_000_000),
            ("1.50000000000000000000", 15_000_000, 15_000_000),
        ]);
    }

    #[test]
    fn parts_of_a_unit() {
        check(&[
            ("0.0000001", 1, 1),
            ("0.00000001", 0, 1),
            ("0.00000005", 0, 1),
            ("0.00000009", 0, 1),
            ("0.00000010", 1, 1),
            ("0.00000011", 1, 2),
            ("0.00000015", 1, 2),
            ("1.23456789", 12_345_678, 12_345_679),
            ("1.2345678", 12_345_678, 12_345_678),
            ("0.99999999", 9_999_999, 10_000_000),
            ("5.e-8", 0, 1),
            (".5e-7", 0, 1),
        ]);
    }

    #[test]
    fn negative_lows_go_down_and_highs_up() {
        check(&[
            ("-0.0000001", -1, -1),
            ("-0.00000001", -1, 0),
            ("-0.00000005", -1, 0),
            ("-0.00000009", -1, 0),
            ("-0.00000011", -2, -1),
            ("-0.00000015", -2, -1),
            ("-1.23456789", -12_345_679, -12_345_678),
            ("-0.99999999", -10_000_000, -9_999_999),
            ("-.5e-7", -1, 0),
        ]);
    }

    #[test]
    fn sizes_that_just_fit() {
        check(&[
            ("1e10", LARGEST, LARGEST),
            ("-1e10", -LARGEST, -LARGEST),
            ("+1E+10", LARGEST, LARGEST),
            ("10000000000", LARGEST, LARGEST),
            ("10000000000.0000000", LARGEST, LARGEST),
            ("10000000000.000000000000", LARGEST, LARGEST),
            ("1000000000000e-2", LARGEST, LARGEST),
            ("0.00001e15", LARGEST, LARGEST),
            ("9999999999.99999999", LARGEST - 1, LARGEST),
            ("-9999999999.99999999", -LARGEST, 1 - LARGEST),
            ("9999999999.9999999", LARGEST - 1, LARGEST - 1),
        ]);
    }

    #[test]
    fn sizes_that_are_too_large() {
        for text in [
            "10000000000.00000001",
            "-10000000000.00000001",
            "10000000000.0000001",
            "1.0000000000000000001e10",
            "100000000000.000000001e-1",
            "10000000001",
            "1e11",
            "-1e9999",
            "922337203685.4775808",
            "1844674407370.9551616",
            "18446744073709551616",
            "1e300",
        ] {
            assert_eq!(both(text), Err(Fault::Size), "{text}");
        }
    }

    #[test]
    fn written_exponents() {
        check(&[
            ("0e9999", 0, 0),
            ("0e-9999", 0, 0),
            ("-0E+9999", 0, 0),
            ("0e0000000000000000000000009999", 0, 0),
            ("0.1e-9999", 0, 1),
            ("1e-9999", 0, 1),
            ("-1e-9999", -1, 0),
            ("1e+00005", 1_000_000_000_000, 1_000_000_000_000),
            ("1e-00007", 1, 1),
            ("1e-8", 0, 1),
            ("123e0", 1_230_000_000, 1_230_000_000),
        ]);
        for text in [
            "0e10000",
            "0e-10000",
            "1e10000",
            "1e-10000",
            "-0.0e+10000",
            "0e00000000000000000000000010000",
            "0e65536",
            "0e4294967296",
            "0e-4294967297",
            "0e18446744073709551616",
            "0e-340282366920938463463374607431768211456",
        ] {
            assert_eq!(both(text), Err(Fault::Exponent), "{text}");
        }
    }

    #[test]
    fn exponents_that_cancel() {
        let zeros = |count: usize| "0".repeat(count);
        let one = 10_000_000;
        check(&[
            (&format!("0.{}1e30", zeros(29)), one, one),
            (&format!("1{}e-30", zeros(30)), one, one),
            (&format!("-.{}1e9999", zeros(9_998)), -one, -one),
            (&format!("1{}e-9999", zeros(9_999)), one, one),
            (&format!("-0.{}1e23", zeros(29)), -1, -1),
            (&format!("-0.{}1e22", zeros(29)), -1, 0),
        ]);
    }

    #[test]
    fn many_digits() {
        let zeros = "0".repeat(5_000);
        let nines = "9".repeat(5_000);
        check(&[
            (&format!("{zeros}1.5"), 15_000_000, 15_000_000),
            (&format!("1.{zeros}1"), 10_000_000, 10_000_001),
            (&format!("-1.{zeros}1"), -10_000_001, -10_000_000),
            (&format!("1.{zeros}"), 10_000_000, 10_000_000),
            (&format!("-0.{nines}"), -10_000_000, -9_999_999),
            (&format!("9999999999.{nines}"), LARGEST - 1, LARGEST),
            (&format!("{nines}e-4990"), LARGEST - 1, LARGEST),
            (&format!("10000000000.{zeros}"), LARGEST, LARGEST),
        ]);
        for text in [
            format!("10000000000.{zeros}1"),
            format!("1{zeros}1e-4991"),
            nines,
        ] {
            assert_eq!(both(&text), Err(Fault::Size));
        }
    }

    #[test]
    fn words_in_every_case() {
        for word in [
            "inf", "INF", "Inf", "iNf", "infinity", "INFINITY", "InFiNiTy", "nan", "NaN", "NAN",
        ] {
            for sign in ["", "+", "-"] {
                let text = [sign, word].concat();
                assert_eq!(both(&text), Err(Fault::NotFinite), "{text}");
            }
        }
    }

    /// Of a text that is read, with as much room as it needs and so many places more.
    fn boxes(text: &str, more: isize) -> Result<Vec<Row>, (u32, usize)> {
        let rows = store_cases::read(text.as_bytes()).expect("a text that is read");
        let places = (ROW_PLACES * rows.nodes.len() / 3).saturating_add_signed(more);
        let table = table(text.as_bytes(), &rows, places);
        table.map_err(|refusal| (refusal.number(), refusal.place))
    }

    #[test]
    fn a_node_has_what_its_descendants_have() {
        let text = "GEOMETRYCOLLECTION(POINT(-1 2),GEOMETRYCOLLECTION(POINT EMPTY,                    MULTIPOINT(3 -4.00000001,0.00000001 5)),LINESTRING EMPTY)";
        let table = [
            [1, -10_000_000, 30_000_000, -40_000_001, 50_000_000],
            [1, -10_000_000, -10_000_000, 20_000_000, 20_000_000],
            [1, 0, 30_000_000, -40_000_001, 50_000_000],
            [0, 0, 0, 0, 0],
            [1, 0, 30_000_000, -40_000_001, 50_000_000],
            [1, 30_000_000, 30_000_000, -40_000_001, -40_000_000],
            [1, 0, 1, 50_000_000, 50_000_000],
            [0, 0, 0, 0, 0],
        ];
        assert_eq!(boxes(text, 0), Ok(table.to_vec()));
        assert_eq!(boxes("POLYGON EMPTY", 0), Ok(vec![[0; 5]]));
        assert_eq!(boxes("POLYGON(EMPTY)", 0), Ok(vec![[0; 5]; 2]));
    }

    #[test]
    fn neither_z_nor_m_is_looked_at() {
        let row = [1, 10_000_000, 20_000_000, 20_000_000, 30_000_000];
        for text in [
            "LINESTRING Z(1 2 +inf,2 3 -nan)",
            "LINESTRING M(1 2 1e10000,2 3 1e11)",
            "LINESTRING ZM(1 2 +nan 1e11,2 3 0e-10000 -infinity)",
        ] {
            assert_eq!(boxes(text, 0), Ok(vec![row]), "{text}");
        }
    }

    #[test]
    fn the_first_one_at_fault() {
        for (text, number, place) in [
            ("POINT(+inf 1)", 30, 7),
            ("POINT(-inf 1)", 30, 6),
            ("POINT(++inf 1)", 30, 7),
            ("POINT(1 +nan)", 30, 9),
            ("POINT(1e10000 +nan)", 31, 6),
            ("POINT(+nan 1e10000)", 30, 7),
            ("POINT(1 1e11)", 31, 8),
            ("LINESTRING Z(1 2 +inf,3 1e11 4)", 31, 24),
            ("LINESTRING(1 2,3 +inf,1e11 5)", 30, 18),
            ("MULTIPOINT(1 +1e11,+inf 3)", 31, 14),
            ("GEOMETRYCOLLECTION(POINT(1 +nan),POINT(1e11 2))", 30, 28),
            ("GEOMETRYCOLLECTION(POINT EMPTY,POINT(1e11 +nan))", 31, 37),
        ] {
            assert_eq!(boxes(text, 0), Err((number, place)), "{text}");
        }
    }

    #[test]
    fn rows_that_are_not_there() {
        let row = [1, 10_000_000, 10_000_000, 20_000_000, 20_000_000];
        for more in [0, 1, 4, 5, 100] {
            assert_eq!(boxes("MULTIPOINT(1 2)", more), Ok(vec![row; 2]));
        }
        for more in [-1, -4, -5, -6, -10] {
            assert_eq!(boxes("MULTIPOINT(1 2)", more), Err((23, 0)));
            assert_eq!(boxes("MULTIPOINT(+inf 1e11)", more), Err((23, 0)));
        }
        let rows = Rows {
            nodes: vec![1, 0, 1],
            numbers: vec![0, 3],
        };
        let refusal = table(b"inf", &rows, 0).expect_err("ill formed");
        assert_eq!((refusal.number(), refusal.place), (22, 0));
    }
}
