//! The Rust's `infer_type`: kind and dimension, or the refusal's number.

use crate::reader::dimension_number;
use wkt::types::GeometryType;

/// How the messages of `infer_type` begin, and the number that document 01 gives them.
const REFUSALS: [(u32, &str); 3] = [
    (19, "Unsupported WKT prefix "),
    (
        20,
        "Invalid WKT; no whitespace between geometry type and EMPTY.",
    ),
    (21, "Invalid WKT; no '(' character and not EMPTY"),
];

#[derive(Clone, Debug, PartialEq, Eq)]
pub enum Inference {
    Accepted { kind: u32, dimension: u32 },
    Refused { number: u32, message: String },
}

pub fn infer(text: &str) -> Inference {
    match wkt::infer_type(text) {
        Ok((kind, dimension)) => Inference::Accepted {
            kind: kind_number(kind),
            dimension: dimension_number(dimension),
        },
        Err(message) => Inference::Refused {
            number: refusal_number(&message),
            message,
        },
    }
}

fn refusal_number(message: &str) -> u32 {
    let known = REFUSALS.iter().find(|(_, text)| message.starts_with(text));
    known.expect("infer_type says only these").0
}

fn kind_number(kind: GeometryType) -> u32 {
    match kind {
        GeometryType::Point => 1,
        GeometryType::LineString => 2,
        GeometryType::Polygon => 3,
        GeometryType::MultiPoint => 4,
        GeometryType::MultiLineString => 5,
        GeometryType::MultiPolygon => 6,
        GeometryType::GeometryCollection => 7,
    }
}

/// `accepted KIND DIMENSION` or `refused NUMBER MESSAGE`; the message may repeat
/// the text, so it is escaped to stay on one line.
pub fn line(inference: &Inference) -> String {
    match inference {
        Inference::Accepted { kind, dimension } => format!("accepted {kind} {dimension}"),
        Inference::Refused { number, message } => {
            format!("refused {number} {}", message.escape_debug())
        }
    }
}

#[cfg(test)]
mod tests {
    use super::*;

    #[test]
    fn edges_of_document_01() {
        for (text, expected) in [
            ("POINTZ EMPTY", "accepted 1 0"),
            ("POINT Z EMPTY", "accepted 1 1"),
            (" \x0bmultipoint zm(", "accepted 4 3"),
            (
                "POINTEMPTY",
                "refused 20 Invalid WKT; no whitespace between geometry type and EMPTY.",
            ),
            (
                "POINT",
                "refused 21 Invalid WKT; no \\'(\\' character and not EMPTY",
            ),
            (
                "LINEARRING(\n",
                "refused 19 Unsupported WKT prefix LINEARRING",
            ),
            ("\nx\n(", "refused 19 Unsupported WKT prefix X\\n"),
        ] {
            assert_eq!(line(&infer(text)), expected, "{text:?}");
        }
    }
}
