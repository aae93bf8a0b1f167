//! The number type that the Rust is run with: it reads exactly what `f64` reads,
//! and knows afterwards which text that was.

use std::cell::RefCell;
use std::num::ParseFloatError;
use std::str::FromStr;

thread_local! {
    /// The texts of all numbers read since the last `forget_texts`, one after the
    /// other. The Rust wants numbers that can be copied, so they can't own a text.
    static TEXTS: RefCell<String> = const { RefCell::new(String::new()) };
}

/// A double with the text it was read from.
#[derive(Clone, Copy, Debug, Default, PartialEq, PartialOrd)]
pub struct KeptNumber {
    value: f64,
    start: usize,
    length: usize,
}

impl num_traits::Num for KeptNumber {}
impl num_traits::NumCast for KeptNumber {}

impl FromStr for KeptNumber {
    type Err = ParseFloatError;

    fn from_str(text: &str) -> Result<Self, Self::Err> {
        let value = f64::from_str(text)?;
        let start = TEXTS.with_borrow_mut(|texts| {
            let start = texts.len();
            texts.push_str(text);
            start
        });
        Ok(KeptNumber {
            value,
            start,
            length: text.len(),
        })
    }
}

impl KeptNumber {
    /// The bits of the double that `f64` read.
    pub fn bits(&self) -> u64 {
        self.value.to_bits()
    }

    /// The exact text that was handed to `f64`.
    pub fn text(&self) -> String {
        TEXTS.with_borrow(|texts| texts[self.start..self.start + self.length].to_string())
    }

    /// Whether that text is the given one.
    pub fn was_read_from(&self, text: &str) -> bool {
        TEXTS.with_borrow(|texts| &texts[self.start..self.start + self.length] == text)
    }

    pub fn text_length(&self) -> usize {
        self.length
    }
}

/// Drops the texts of this thread's earlier numbers, which must be unused by now.
pub fn forget_texts() {
    TEXTS.with_borrow_mut(String::clear);
}
