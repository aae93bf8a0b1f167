//! The 7 × 4 + 1 spellings of names, each in three cases, asked of the real library; and words near them.
use doorhollow::{infer_type, read, Dimension, Kind};

const KINDS: [Kind; 7] = [
    Kind::Point,
    Kind::LineString,
    Kind::Polygon,
    Kind::MultiPoint,
    Kind::MultiLineString,
    Kind::MultiPolygon,
    Kind::GeometryCollection,
];

const ENDINGS: [(&str, Dimension); 4] = [
    ("", Dimension::XY),
    ("Z", Dimension::XYZ),
    ("M", Dimension::XYM),
    ("ZM", Dimension::XYZM),
];

/// As it stands, in small letters, and with every other letter small.
fn cases(word: &str) -> [String; 3] {
    let every_other = word.char_indices().map(|(i, letter)| {
        if i % 2 == 0 {
            letter.to_ascii_lowercase()
        } else {
            letter
        }
    });
    [
        word.to_string(),
        word.to_ascii_lowercase(),
        every_other.collect(),
    ]
}

fn assert_read(word: &str, kind: Kind, dimension: Dimension) {
    for spelled in cases(word) {
        let text = format!("{spelled} EMPTY");
        let root = read(&text).expect(&spelled).root();
        assert_eq!((root.kind, root.dimension), (kind, dimension), "{spelled}");
    }
}

#[test]
fn every_spelling_is_read() {
    let mut spellings = 0;
    for kind in KINDS {
        for (ending, dimension) in ENDINGS {
            assert_read(&format!("{kind}{ending}"), kind, dimension);
            spellings += 1;
        }
    }
    assert_read("LINEARRING", Kind::LineString, Dimension::XY);
    assert_eq!(spellings + 1, 29);
}

#[test]
fn every_name_is_inferred_but_the_extra_word() {
    for kind in KINDS {
        for (ending, dimension) in ENDINGS {
            for spelled in cases(&format!("{kind}{ending}")) {
                let inferred = infer_type(&format!("{spelled}(")).expect(&spelled);
                assert_eq!(inferred, (kind, dimension), "{spelled}");
            }
        }
    }
    let refusal = infer_type("LINEARRING(").expect_err("it has no such name");
    assert_eq!((refusal.number, refusal.place), (19, 0));
}

#[test]
fn words_near_a_name_are_none() {
    let near = "LINEARRINGZ LINEARRINGM LINEARRINGZM POINTMZ POINTZZ POINTS POIN POLYGO POLYGONS \
                MULTIPOIN MULTI GEOMETRY GEOMETRYCOLLECTIONS P ZM `OINT {INESTRING POLYGO. PO\u{9}NT";
    for word in near.split(' ') {
        let refusal = read(&format!("{word} EMPTY")).expect_err(word);
        assert_eq!((refusal.number, refusal.place), (9, 0), "{word:?}");
    }
}
