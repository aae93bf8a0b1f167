//! Number texts for the boxes: near a whole unit, near the largest size, with exponents near
//! the largest or that undo where the point stands, with many digits; and those at fault.

use crate::numbers::in_any_case;
use crate::random::Random;

/// In units, of a ten-millionth; behind these decimals a unit has parts.
const UNIT_DECIMALS: usize = 7;
/// The largest size in units.
const LARGEST: &str = "100000000000000000";

/// Texts with a box, each at an edge.
pub const SOUND: [&str; 56] = [
    "0",
    "-0",
    "+0",
    "-0.0",
    "4",
    "+4",
    "-4",
    ".5",
    "5.",
    "-.5",
    "007",
    "1e5",
    "1e+00005",
    "1E-00005",
    "0.0000001",
    "-0.0000001",
    "0.00000001",
    "-0.00000001",
    "0.00000005",
    "-0.00000005",
    "0.00000009",
    "-0.00000009",
    "0.00000015",
    "-0.00000015",
    "1.23456789",
    "-1.23456789",
    "1.2345678",
    "-1.2345678",
    "0.99999999",
    "-0.99999999",
    "1e-7",
    "-1e-7",
    "1e-8",
    "-1e-8",
    "9.9e-8",
    "1e10",
    "-1e10",
    "10000000000",
    "-10000000000",
    "10000000000.0000000",
    "-10000000000.00000000000",
    "1000000000000e-2",
    "0.00001e15",
    "9999999999.9999999",
    "-9999999999.9999999",
    "9999999999.99999999",
    "-9999999999.99999999",
    "0e9999",
    "0e-9999",
    "-0E+09999",
    "0.1e-9999",
    "1e-9999",
    "-1e-9999",
    "00000000000000000000.5",
    "0.000000000000000000000000000001e30",
    "1000000000000000000000000000000e-30",
];

/// Texts whose exponent or size is too large; some of them come out small where they are
/// reckoned in 16, 32, 64 or 128 bits.
pub const TOO_LARGE: [&str; 44] = [
    "10000000000.00000001",
    "-10000000000.00000001",
    "10000000000.0000001",
    "-10000000000.0000001",
    "1.0000000000000000001e10",
    "100000000000.000000001e-1",
    "10000000001",
    "-10000000001",
    "1e11",
    "-1e11",
    "1e17",
    "1e18",
    "99999999999",
    "1e300",
    "1e9999",
    "-1e9999",
    "0.1e9999",
    "429496729600000",
    "6553600000000000000000000000",
    "922337203685.4775807",
    "922337203685.4775808",
    "-922337203685.4775809",
    "1844674407370.9551616",
    "1844674407370.9551617",
    "18446744073709551616",
    "34028236692093846346337460743176.8211456",
    "340282366920938463463374607431768211457",
    "0e10000",
    "0e-10000",
    "0E+10000",
    "-0.0e10000",
    "1e10000",
    "1e-10000",
    "-1e-10000",
    "0e0000000010000",
    "1e99999",
    "1e32768",
    "1e65536",
    "1e-65537",
    "1e2147483648",
    "1e4294967296",
    "1e-4294967303",
    "1e18446744073709551616",
    "1e-340282366920938463463374607431768211456",
];

pub const WORDS: [&str; 3] = ["inf", "infinity", "nan"];
const SIGNS: [&str; 3] = ["", "+", "-"];

/// What follows a whole unit: nothing, or digits that make a part of a unit or none.
const TAILS: [&str; 14] = [
    "",
    "",
    "0",
    "000",
    "00000000000000000000",
    "1",
    "4",
    "5",
    "9",
    "49999999",
    "50",
    "99999999999999999999",
    "000000000000001",
    "0000000000000000000000000000000000000001",
];

/// Digits, the last so many of them behind the point, or beyond it where that is negative.
#[derive(Clone, Debug)]
pub struct Value {
    pub digits: String,
    pub decimals: i64,
}

/// One number text in so many has thousands of digits.
const LONG_EVERY: usize = 1_500;

/// A text that has a box.
pub fn sound(random: &mut Random) -> String {
    let text = match random.below(10) {
        0..=2 => return random.pick(&SOUND).to_string(),
        3 => random.below(1_000).to_string(),
        4 => small(random),
        _ => {
            let (units, tail) = units(random);
            let value = in_units(&units, &tail);
            spelled(random, &value)
        }
    };
    random.pick(&SIGNS).to_string() + &text
}

/// So many whole units that their size isn't too large, and what follows them.
pub fn units(random: &mut Random) -> (String, String) {
    let tail = random.pick(&TAILS).to_string();
    match random.below(8) {
        // The largest size has no more than zeros behind it.
        0 => (LARGEST.to_string(), "0".repeat(random.below(12))),
        1 => ("9".repeat(LARGEST.len() - 1), tail),
        2 => (String::new(), tail),
        3 if random.once_in(LONG_EVERY / 8) => {
            let many = 1 + random.below(5_000);
            (random.below(99).to_string(), digits(random, many))
        }
        _ => {
            let count = random.below(LARGEST.len());
            (digits(random, count), tail)
        }
    }
}

/// Units with a part of one behind them, as a value.
pub fn in_units(units: &str, tail: &str) -> Value {
    Value {
        digits: [units, tail].concat(),
        decimals: (UNIT_DECIMALS + tail.len()) as i64,
    }
}

/// A text without sign that has this value, with the point anywhere.
pub fn spelled(random: &mut Random, value: &Value) -> String {
    let count = value.digits.len();
    // How many of the digits the text has behind its point.
    let behind = match random.below(6) {
        0..=2 => value.decimals,
        3 => random.below(count + 1) as i64,
        4 => random.below(count + 40) as i64 - 20,
        _ => 0,
    };
    let mut text = with_point(random, &value.digits, behind);
    let exponent = behind - value.decimals;
    if exponent != 0 || random.once_in(8) {
        text += &written_exponent(random, exponent);
    }
    text
}

/// The digits with so many behind the point, zeros at either end.
fn with_point(random: &mut Random, digits: &str, behind: i64) -> String {
    let zeros = |count: usize| "0".repeat(count);
    let mut digits = zeros(few(random)) + digits;
    if behind <= 0 {
        digits += &zeros(behind.unsigned_abs() as usize);
        let end = match random.below(4) {
            0 => format!(".{}", zeros(few(random))),
            _ => String::new(),
        };
        // A point alone is no number.
        let front = if digits.is_empty() { "0" } else { "" };
        return format!("{front}{digits}{end}");
    }
    let missing = (behind as usize).saturating_sub(digits.len());
    let digits = zeros(missing) + &digits;
    let (before, after) = digits.split_at(digits.len() - behind as usize);
    format!("{before}.{after}{}", zeros(few(random)))
}

/// 0 in most cases.
fn few(random: &mut Random) -> usize {
    match random.below(100) {
        0 => random.below(300),
        1..=12 => 1 + random.below(3),
        _ => 0,
    }
}

fn written_exponent(random: &mut Random, exponent: i64) -> String {
    let letter = random.pick(&["e", "e", "E"]);
    let sign = match exponent {
        ..=-1 => "-",
        0 => random.pick(&["", "+", "-"]),
        _ => random.pick(&["", "+"]),
    };
    let zeros = "0".repeat(few(random));
    format!("{letter}{sign}{zeros}{}", exponent.unsigned_abs())
}

/// Nothing but an exponent near the largest makes it so small; zeros may have any exponent.
fn small(random: &mut Random) -> String {
    let exponent = match random.below(3) {
        0 => -9_999 + random.below(5) as i64,
        1 => -(random.below(10_000) as i64),
        _ => random.below(10_000) as i64,
    };
    let mantissa = match exponent < 0 {
        true => random.pick(&["1", "0.1", "5", "99999", ".00001", "0"]),
        false => random.pick(&["0", "0.000", "00", ".0", "0."]),
    };
    mantissa.to_string() + &written_exponent(random, exponent)
}

/// A text at fault.
pub fn offending(random: &mut Random) -> String {
    match random.below(5) {
        0 | 1 => word(random),
        2 | 3 => random.pick(&TOO_LARGE).to_string(),
        _ => random.pick(&SIGNS).to_string() + &too_large(random),
    }
}

fn word(random: &mut Random) -> String {
    let word = *random.pick(&WORDS);
    random.pick(&SIGNS).to_string() + &in_any_case(random, word)
}

fn too_large(random: &mut Random) -> String {
    match random.below(4) {
        // Just over the largest size, by a part of a unit or by some units.
        0 => {
            let tail = "0".repeat(random.below(30)) + "1";
            spelled(random, &in_units(LARGEST, &tail))
        }
        1 => {
            let units = format!("1000000000000000{}", 10 + random.below(90));
            let units = if units == LARGEST {
                "9".repeat(18)
            } else {
                units
            };
            spelled(random, &in_units(&units, ""))
        }
        2 => {
            let count = LARGEST.len() + random.below(30);
            let units = format!("1{}", digits(random, count));
            spelled(random, &in_units(&units, ""))
        }
        _ => {
            let size = 10_000 + random.below(3) as i64 * random.below(100_000) as i64;
            let exponent = if random.once_in(2) { size } else { -size };
            let mantissa = random.pick(&["0", "1", "0.0", "5.5"]);
            mantissa.to_string() + &written_exponent(random, exponent)
        }
    }
}

/// Any number text, for where none is looked at.
pub fn any(random: &mut Random) -> String {
    match random.below(3) {
        0 => offending(random),
        _ => sound(random),
    }
}

fn digits(random: &mut Random, count: usize) -> String {
    let digits = (0..count).map(|_| char::from(*random.pick(b"0012345678999")));
    digits.collect()
}

#[cfg(test)]
mod tests {
    use super::*;
    use crate::boxes::{self, Fault};
    use crate::stores::is_lexeme;

    #[test]
    fn sound_texts_are_taken_and_those_at_fault_are_not() {
        let mut random = Random::new(1);
        let drawn: Vec<String> = (0..20_000).map(|_| sound(&mut random)).collect();
        for text in SOUND
            .iter()
            .copied()
            .chain(drawn.iter().map(String::as_str))
        {
            assert!(is_lexeme(text.as_bytes()), "{text}");
            assert!(boxes::units(text.as_bytes()).is_ok(), "{text}");
        }
        let drawn: Vec<String> = (0..20_000).map(|_| offending(&mut random)).collect();
        for text in TOO_LARGE
            .iter()
            .copied()
            .chain(drawn.iter().map(String::as_str))
        {
            assert!(is_lexeme(text.as_bytes()), "{text}");
            assert!(boxes::units(text.as_bytes()).is_err(), "{text}");
        }
    }

    /// What a text was made of says what its low and high are, however it is spelled.
    #[test]
    fn a_value_is_the_same_in_every_spelling() {
        let mut random = Random::new(2);
        for _ in 0..20_000 {
            let (whole, tail) = units(&mut random);
            let value = in_units(&whole, &tail);
            let text = spelled(&mut random, &value);
            let low: i64 = format!("0{whole}").parse().expect("it isn't too large");
            let high = low + i64::from(tail.contains(|digit| digit != '0'));
            let exact = boxes::units(text.as_bytes()).expect("it has a box");
            assert_eq!(
                (exact.floor(), exact.ceiling()),
                (Some(low), Some(high)),
                "{text}"
            );
            let exact = boxes::units(format!("-{text}").as_bytes()).expect("it has a box");
            assert_eq!(
                (exact.floor(), exact.ceiling()),
                (Some(-high), Some(-low)),
                "{text}"
            );
        }
    }

    #[test]
    fn faults_of_every_sort_are_drawn() {
        let mut random = Random::new(3);
        let faults = (0..2_000).map(|_| boxes::units(offending(&mut random).as_bytes()).err());
        let faults: Vec<Fault> = faults.flatten().collect();
        for fault in [Fault::NotFinite, Fault::Exponent, Fault::Size] {
            let count = faults.iter().filter(|drawn| **drawn == fault).count();
            assert!(count > 300, "{fault:?}: {count}");
        }
    }

    #[test]
    fn sound_texts_are_of_every_sort() {
        let mut random = Random::new(4);
        let drawn: Vec<String> = (0..40_000).map(|_| sound(&mut random)).collect();
        let share = |is_of_sort: &dyn Fn(&str) -> bool| {
            drawn.iter().filter(|text| is_of_sort(text)).count()
        };
        assert!(share(&|text| text.starts_with('-')) > 5_000);
        assert!(share(&|text| text.starts_with('+')) > 5_000);
        assert!(share(&|text| text.contains(['e', 'E'])) > 5_000);
        assert!(share(&|text| text.len() > 1_000) > 5);
        assert!(share(&|text| text.starts_with("00")) > 200);
        let exact = |text: &str| boxes::units(text.as_bytes()).ok();
        let size = |text: &str| exact(text).and_then(|exact| exact.size().floor());
        let largest = 100_000_000_000_000_000;
        assert!(share(&|text| size(text) == Some(largest)) > 1_000);
        assert!(share(&|text| size(text) == Some(largest - 1)) > 1_000);
        let is_part =
            |text: &str| exact(text).is_some_and(|exact| exact.floor() != exact.ceiling());
        assert!(share(&is_part) > 8_000);
    }
}
