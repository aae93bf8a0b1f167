//! Long texts, for records that only a native program holds: geometries of every kind and
//! dimension with as many bytes as are asked for, all read, and changes near their end.

use crate::damage;
use crate::numbers;
use crate::random::Random;
use crate::stores::{ENDINGS, MAX_DEPTH, WIDTHS};

/// What a long text is made of.
#[derive(Clone, Copy, Debug, PartialEq, Eq)]
pub enum Shape {
    /// A point with long numbers.
    Point,
    /// A point with many blanks in it.
    Blanks,
    Line,
    /// A line string with numbers of some thousand digits.
    LongNumbers,
    /// A polygon of many rings.
    Rings,
    Points,
    Lines,
    Polygons,
    /// A collection of every kind, and of what is empty.
    Members,
    /// Collections in each other, as deep as they may be.
    Chains,
}

pub const SHAPES: [Shape; 10] = [
    Shape::Line,
    Shape::Points,
    Shape::Members,
    Shape::Rings,
    Shape::Polygons,
    Shape::Chains,
    Shape::Lines,
    Shape::LongNumbers,
    Shape::Blanks,
    Shape::Point,
];

/// Numbers that a box can hold, of many spellings.
const NUMBERS: [&str; 16] = [
    "0",
    "1",
    "-2",
    "+3",
    "++4",
    "+-5",
    ".5",
    "6.",
    "-0.0",
    "007",
    "1e3",
    "-1.5E-3",
    "12.3456789",
    "-179.99999999",
    "+89.0000001",
    "0.00000005",
];
/// Numbers that no box can hold.
const BOXLESS: [&str; 6] = ["+inf", "-nan", "++Infinity", "1e11", "0e10000", "-1e10000"];

/// The members of collections that are none themselves.
const MEMBERS: [&str; 6] = [
    "POINT",
    "LINESTRING",
    "POLYGON",
    "MULTIPOINT",
    "MULTILINESTRING",
    "MULTIPOLYGON",
];

/// What may stand behind the root, unread.
const BEHIND: [&str; 8] = ["", "", "", " ", "\n", "POINT(", ")", " 1 2)"];

/// Bytes that no character is made of, or that are cut.
const WRONG_BYTES: [&[u8]; 7] = [
    b"\xff",
    b"\x80",
    b"\xc3",
    b"\xe4\xba",
    b"\xf0\x9f\x8c",
    b"\xed\xa0\x80",
    b"\xc0\x80",
];

/// Changes lie in so many bytes of the end.
const END: usize = 60;
/// What may stand in the place of what follows the last comma.
const OTHER_ITEMS: [&str; 24] = [
    "",
    "x",
    "1",
    "1 x",
    "1 2 x",
    "1 2 3 x",
    "1 2 3 4 5",
    "(",
    "(x)",
    "(1)",
    "(1 x)",
    "(1 2 x)",
    "((x))",
    "((1 2,x))",
    "EMPTY",
    "京",
    "\0",
    "+",
    "POINT(x)",
    "POINT foo",
    "POINT Z x",
    "LINESTRING(1 2,3)",
    "GEOMETRYCOLLECTION()",
    "GEOMETRYCOLLECTION(1)",
];

/// A text of so many bytes that is read, if lent enough rows.
pub fn text(random: &mut Random, shape: Shape, dimension: usize, length: usize) -> String {
    let behind = *random.pick(&BEHIND);
    let mut maker = Maker {
        random,
        text: String::with_capacity(length),
        dimension,
        length: length - behind.len(),
    };
    maker.geometry(shape);
    maker.text += behind;
    assert_eq!(maker.text.len(), length);
    maker.text
}

struct Maker<'random> {
    random: &'random mut Random,
    text: String,
    dimension: usize,
    /// Of the geometry.
    length: usize,
}

impl Maker<'_> {
    fn geometry(&mut self, shape: Shape) {
        match shape {
            Shape::Point => self.point(),
            Shape::Blanks => self.blanks(),
            Shape::Line => self.list("LINESTRING", Self::coordinate, Self::last_coordinate),
            Shape::LongNumbers => {
                self.list("LINESTRING", Self::long_coordinate, Self::last_coordinate)
            }
            Shape::Rings => self.list("POLYGON", Self::ring, Self::last_ring),
            Shape::Points => self.list("MULTIPOINT", Self::member_point, Self::last_coordinate),
            Shape::Lines => self.list("MULTILINESTRING", Self::line, Self::last_line),
            Shape::Polygons => self.list("MULTIPOLYGON", Self::polygon, Self::last_polygon),
            Shape::Members => self.list("GEOMETRYCOLLECTION", Self::member, Self::last_member),
            Shape::Chains => self.list("GEOMETRYCOLLECTION", Self::chain, Self::last_chain),
        }
    }

    /// Name and ending, joined or apart, and the parenthesis.
    fn open(&mut self, name: &str) {
        self.text += &numbers::in_any_case(self.random, name);
        let ending = ENDINGS[self.dimension];
        self.text += match self.random.once_in(2) {
            true => ending,
            false => ending.trim_start(),
        };
        self.text.push('(');
    }

    /// Items with a comma between, as many as there is room for, then blanks and a last one.
    fn list(&mut self, name: &str, item: fn(&mut Self), last: fn(&mut Self)) {
        self.open(name);
        let kept = std::mem::take(&mut self.text);
        last(self);
        let end = std::mem::replace(&mut self.text, kept) + ")";
        let room = self.length - end.len();
        loop {
            let before = self.text.len();
            item(self);
            self.text.push(',');
            if self.text.len() > room {
                self.text.truncate(before);
                break;
            }
        }
        let blanks = room - self.text.len();
        self.text.extend(std::iter::repeat_n(' ', blanks));
        self.text += &end;
    }

    /// Each number has about as many digits as the others.
    fn point(&mut self) {
        self.open("POINT");
        let width = WIDTHS[self.dimension];
        // A blank or the closing parenthesis stands behind each.
        let digits = self.length - self.text.len() - width;
        for index in 0..width {
            self.digits((digits + index) / width);
            self.text.push(if index + 1 < width { ' ' } else { ')' });
        }
    }

    fn blanks(&mut self) {
        self.open("POINT");
        self.coordinate();
        let place = self.text.rfind(' ').expect("a coordinate has a blank");
        let blanks = self.length - self.text.len() - 1;
        let blanks: String = " \t\n\r".chars().cycle().take(blanks).collect();
        self.text.insert_str(place, &blanks);
        self.text.push(')');
    }

    fn digits(&mut self, count: usize) {
        let digit = |_| char::from(b'0' + self.random.below(10) as u8);
        let digits: String = (0..count).map(digit).collect();
        self.text += &digits;
    }

    fn number(&mut self) {
        match self.random.below(4) {
            0 => {
                let (whole, decimals) = (1 + self.random.below(4), 1 + self.random.below(9));
                self.digits(whole);
                self.text.push('.');
                self.digits(decimals);
            }
            1 => {
                let whole = 1 + self.random.below(2);
                self.digits(whole);
            }
            _ => self.text += *self.random.pick(&NUMBERS),
        }
    }

    fn coordinate(&mut self) {
        for index in 0..WIDTHS[self.dimension] {
            if index > 0 {
                self.text.push(' ');
            }
            self.number();
        }
    }

    fn long_coordinate(&mut self) {
        for index in 0..WIDTHS[self.dimension] {
            if index > 0 {
                self.text.push(' ');
            }
            // A box can hold what is behind the point.
            self.text += *self.random.pick(&["-1.", ".", "+0.0"]);
            let digits = 1 + self.random.below(6_000);
            self.digits(digits);
        }
    }

    /// One that no box can hold, at times.
    fn last_coordinate(&mut self) {
        let width = WIDTHS[self.dimension];
        let at_fault = self.random.below(2 * width);
        for index in 0..width {
            if index > 0 {
                self.text.push(' ');
            }
            match index == at_fault {
                true => self.text += *self.random.pick(&BOXLESS),
                false => self.number(),
            }
        }
    }

    fn member_point(&mut self) {
        match self.random.once_in(2) {
            true => self.coordinates(1),
            false => self.coordinate(),
        }
    }

    /// So many, in parentheses.
    fn coordinates(&mut self, count: usize) {
        for index in 0..count {
            self.text.push(if index == 0 { '(' } else { ',' });
            self.coordinate();
        }
        self.text.push(')');
    }

    fn line(&mut self) {
        let count = 2 + self.random.below(5);
        self.coordinates(count);
    }

    /// Too short, at times.
    fn last_line(&mut self) {
        let count = 1 + self.random.below(3);
        self.coordinates(count);
    }

    /// Long enough, and closed.
    fn ring(&mut self) {
        self.text.push('(');
        let start = self.text.len();
        self.coordinate();
        let first = self.text[start..].to_string();
        for _ in 0..2 + self.random.below(8) {
            self.text.push(',');
            self.coordinate();
        }
        self.text.push(',');
        self.text += &first;
        self.text.push(')');
    }

    /// Too short or open, at times.
    fn last_ring(&mut self) {
        match self.random.below(4) {
            0 => self.coordinates(1),
            1 => self.coordinates(3),
            2 => self.coordinates(5),
            _ => self.ring(),
        }
    }

    fn polygon(&mut self) {
        self.text.push('(');
        self.ring();
        for _ in 0..self.random.below(3) {
            self.text.push(',');
            self.ring();
        }
        self.text.push(')');
    }

    fn last_polygon(&mut self) {
        self.text.push('(');
        self.ring();
        self.text.push(',');
        self.last_ring();
        self.text.push(')');
    }

    /// A member of a collection, which has the collection's dimension.
    fn member(&mut self) {
        let kind = self.random.below(MEMBERS.len());
        self.open(MEMBERS[kind]);
        if self.random.once_in(8) {
            self.text.pop();
            self.text += " EMPTY";
            return;
        }
        match kind {
            0 => self.coordinate(),
            1 => {
                self.coordinate();
                self.text.push(',');
                self.coordinate();
            }
            2 => self.ring(),
            3 => self.member_point(),
            4 => self.line(),
            _ => self.polygon(),
        }
        self.text.push(')');
    }

    /// Of another dimension, at times.
    fn last_member(&mut self) {
        let dimension = self.dimension;
        self.dimension = self.random.below(4);
        self.member();
        self.dimension = dimension;
    }

    /// A point in so many collections that with the root they are as deep as they may be, or
    /// in fewer.
    fn chain(&mut self) {
        let depth = match self.random.once_in(4) {
            true => MAX_DEPTH - 1,
            false => 1 + self.random.below(MAX_DEPTH - 1),
        };
        self.chain_of(depth);
    }

    fn last_chain(&mut self) {
        self.chain_of(MAX_DEPTH - 1);
    }

    fn chain_of(&mut self, depth: usize) {
        for _ in 0..depth {
            self.open("GEOMETRYCOLLECTION");
        }
        self.member();
        self.text.extend(std::iter::repeat_n(')', depth));
    }
}

/// The text with a change near its end; it keeps its length. Most of them are refused there.
pub fn changed(random: &mut Random, text: &str) -> Vec<u8> {
    let (before, end) = text.split_at(text.len() - END);
    let changed = match random.below(8) {
        0 => end[..END - 1 - random.below(4)].to_string(),
        1 => damage::characters(random, end),
        2 => damage::tokens(random, end),
        3 => damage::bad_number(random, end),
        4 => with_bad_number(random, end),
        _ => with_other_item(random, end),
    };
    let mut bytes = [before.as_bytes(), changed.as_bytes()].concat();
    bytes.resize(text.len(), b' ');
    bytes
}

/// In the place of the last number.
fn with_bad_number(random: &mut Random, end: &str) -> String {
    let last = end.rfind(|character: char| character.is_ascii_digit());
    let Some(last) = last else {
        return end.to_string();
    };
    let stop = |character| " \n,()".contains(character);
    let start = end[..last].rfind(stop).map_or(0, |place| place + 1);
    let bad = numbers::bad(random);
    [&end[..start], &bad, &end[last + 1..]].concat()
}

/// Behind the last comma stands something else, and all that is open there is closed.
fn with_other_item(random: &mut Random, end: &str) -> String {
    let start = end.rfind(',').map_or(0, |place| place + 1);
    let (before, item) = end.split_at(start);
    let opened = item.matches('(').count();
    let open = item.matches(')').count().saturating_sub(opened);
    let other = *random.pick(&OTHER_ITEMS);
    [before, other, &")".repeat(open)].concat()
}

/// The text with bytes that aren't UTF-8 near its end.
pub fn not_utf8(random: &mut Random, text: &str) -> Vec<u8> {
    let mut bytes = text.as_bytes().to_vec();
    let within = *random.pick(&[1, 2, 3, END]);
    let place = bytes.len() - 1 - random.below(within);
    let wrong = *random.pick(&WRONG_BYTES);
    let wrong = &wrong[..wrong.len().min(bytes.len() - place)];
    bytes[place..place + wrong.len()].copy_from_slice(wrong);
    bytes
}

#[cfg(test)]
mod tests {
    use super::*;
    use crate::model::{self, Limits};
    use crate::stores;
    use std::collections::BTreeSet;

    #[test]
    fn texts_are_read_and_have_their_length() {
        let mut random = Random::new(1);
        let limits = Limits {
            depth: stores::MAX_DEPTH,
            ..Limits::NONE
        };
        for shape in SHAPES {
            for dimension in 0..4 {
                let length = 40_000 + random.below(9);
                let text = text(&mut random, shape, dimension, length);
                assert_eq!(text.len(), length);
                let store = model::read(&text, limits);
                let store = store.unwrap_or_else(|refusal| panic!("{shape:?}: {refusal:?}"));
                assert_eq!(store.nodes[0][1] as usize, dimension);
            }
        }
    }

    #[test]
    fn changes_lie_at_the_end_and_are_refused_in_many_ways() {
        let mut random = Random::new(2);
        let mut refusals = BTreeSet::new();
        for index in 0..400 {
            let shape = SHAPES[index % SHAPES.len()];
            let text = text(&mut random, shape, index % 4, 8_000 + END);
            let changed = changed(&mut random, &text);
            assert_eq!(changed.len(), text.len());
            assert_eq!(changed[..8_000], text.as_bytes()[..8_000]);
            // A character of several bytes may be cut.
            let changed = String::from_utf8_lossy(&changed);
            if let Err(refusal) = model::read(&changed, Limits::NONE) {
                assert!(refusal.place > 7_000, "{refusal:?}");
                refusals.insert(refusal.number);
            }
            let not_utf8 = not_utf8(&mut random, &text);
            assert_eq!(not_utf8.len(), text.len());
            let error = std::str::from_utf8(&not_utf8).expect_err("it isn't UTF-8");
            assert!(error.valid_up_to() >= 8_000);
        }
        for number in [9, 12, 13, 14, 15, 16, 17, 18, 28, 29] {
            assert!(refusals.contains(&number), "{number}: {refusals:?}");
        }
    }
}
