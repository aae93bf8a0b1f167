//! What tests write by hand.

/// Bytes in hex: blanks and strokes are for the eye.
pub fn hex(text: &str) -> Vec<u8> {
    let digits: Vec<u32> = text
        .chars()
        .filter_map(|digit| digit.to_digit(16))
        .collect();
    let pairs = digits.chunks_exact(2);
    pairs.map(|pair| (16 * pair[0] + pair[1]) as u8).collect()
}
