//! Texts of every length up to the limit, of every kind, and what is one byte longer.
use doorhollow::{
    enough_rows, infer_type, read, read_into, Dimension, Kind, Refusal, NODE_WIDTH, NUMBER_WIDTH,
    TEXT_LIMIT,
};

/// About the limit that there was, about the limit that there is, and one between them.
const LENGTHS: [usize; 6] = [65_535, 65_536, 65_537, 1_048_576, 4_194_303, 4_194_304];

/// Canonical texts of one kind, as long as one likes: pieces between a front and an end, and the number that stands
/// before the end with as many digits as are still wanted.
struct Sort {
    front: &'static str,
    piece: &'static str,
    last: &'static str,
    end: &'static str,
    /// Those without any piece, and those of a piece.
    nodes: [usize; 2],
    numbers: [usize; 2],
}

const fn sort(
    [front, piece, last, end]: [&'static str; 4],
    nodes: [usize; 2],
    numbers: [usize; 2],
) -> Sort {
    Sort {
        front,
        piece,
        last,
        end,
        nodes,
        numbers,
    }
}

const LINE: Sort = sort(["LINESTRING(", "1 2,", "1 2", ")"], [1, 0], [2, 2]);

const SORTS: [Sort; 9] = [
    sort(["POINT(1 ", "2", "2", ")"], [1, 0], [2, 0]),
    LINE,
    sort(
        ["LINESTRING ZM(", "0 -1 .2 3e4,", "1 2 3 4", ")"],
        [1, 0],
        [4, 4],
    ),
    sort(["POLYGON(", "(1 2),", "(1 2", "))"], [2, 1], [2, 2]),
    sort(["MULTIPOINT(", "(1 2),", "(1 2", "))"], [2, 1], [2, 2]),
    sort(["MULTILINESTRING(", "EMPTY,", "(1 2", "))"], [2, 1], [2, 0]),
    sort(
        ["MULTIPOLYGON(", "((1 2)),", "((1 2", ")))"],
        [3, 2],
        [2, 2],
    ),
    sort(
        ["GEOMETRYCOLLECTION(", "POINT Z EMPTY,", "POINT(1 2", "))"],
        [2, 1],
        [2, 0],
    ),
    sort(
        [
            "GEOMETRYCOLLECTION(",
            "GEOMETRYCOLLECTION(POINT(1 2)),",
            "POINT(1 2",
            "))",
        ],
        [2, 2],
        [2, 2],
    ),
];

impl Sort {
    /// The text of a length, and how many pieces it has.
    fn text(&self, length: usize) -> (String, usize) {
        let fill = length - self.front.len() - self.last.len() - self.end.len();
        let pieces = fill / self.piece.len();
        let digits = fill % self.piece.len();
        let text = [
            self.front,
            &self.piece.repeat(pieces),
            self.last,
            &"2".repeat(digits),
            self.end,
        ]
        .concat();
        assert_eq!(text.len(), length);
        (text, pieces)
    }
}

fn refused<T>(answer: Result<T, Refusal>) -> (u32, usize) {
    let refusal = answer.err().expect("refused");
    (refusal.number, refusal.place)
}

#[test]
fn every_kind_is_read_with_its_counts_and_written_back() {
    for length in LENGTHS {
        for sort in &SORTS {
            let (text, pieces) = sort.text(length);
            let told = format!("{}.. of {length} bytes", sort.front);
            let tree = read(&text).expect(&told);
            let counted = |[alone, each]: [usize; 2]| alone + each * pieces;
            assert_eq!(tree.node_count(), counted(sort.nodes), "{told}");
            assert_eq!(tree.number_count(), counted(sort.numbers), "{told}");
            let last = tree.number_span(tree.number_count() - 1).unwrap();
            assert_eq!(last.end, length - sort.end.len(), "{told}");
            assert!(tree.to_wkt() == text, "{told} is written otherwise");
        }
    }
}

#[test]
fn a_text_over_the_limit_is_refused() {
    for sort in &SORTS {
        let (text, _) = sort.text(TEXT_LIMIT + 1);
        assert_eq!(refused(read(&text)), (1, 4_194_304), "{}", sort.front);
    }
    let (text, _) = LINE.text(TEXT_LIMIT + 1);
    let (mut nodes, mut numbers) = ([7; 3], [7; 4]);
    let lent = read_into(&text, &mut nodes, &mut numbers);
    assert_eq!(refused(lent), (1, 4_194_304));
    assert_eq!((nodes, numbers), ([0; 3], [0; 4]));
    // the length comes before all that is wrong in the text
    let longer = vec![0xFF; 3 * TEXT_LIMIT];
    assert_eq!(refused(read(&longer)), (1, 4_194_304));
}

#[test]
fn what_follows_the_geometry_counts() {
    let filled = |filling: &str, length: usize| {
        let left = length - "POINT(1 2)".len();
        format!("POINT(1 2){}", filling.repeat(left / filling.len()))
    };
    for filling in [" ", "x", "é"] {
        let whole = filled(filling, TEXT_LIMIT);
        assert_eq!(whole.len(), TEXT_LIMIT);
        assert_eq!(read(&whole).unwrap().to_wkt(), "POINT(1 2)");
        assert_eq!(refused(read(&(whole + " "))), (1, 4_194_304));
    }
    let mut ill = filled(" ", TEXT_LIMIT).into_bytes();
    ill[TEXT_LIMIT - 1] = 0xFF;
    assert_eq!(refused(read(&ill)), (2, 4_194_303));
}

#[test]
fn places_far_into_a_text() {
    let front = format!("LINESTRING({}", "1 2,".repeat(1_000_000));
    let place = front.len();
    assert!(place > 4_000_000);
    let ends = [
        ("x)", 14, 0),
        ("x 2)", 13, 2),
        ("1 x)", 15, 2),
        ("1 4x)", 29, 3),
        ("1 +)", 28, 2),
        ("1 2", 13, 3),
        ("1 2 3)", 13, 4),
    ];
    for (end, number, behind) in ends {
        let text = format!("{front}{end}");
        assert_eq!(refused(read(&text)), (number, place + behind), "{end}");
    }
}

#[test]
fn a_row_too_few_for_a_long_text() {
    let (text, pieces) = LINE.text(TEXT_LIMIT);
    let places = (2 * pieces + 2) * NUMBER_WIDTH;
    let mut nodes = [7; NODE_WIDTH];
    let mut numbers = vec![7; places];
    let short = read_into(&text, &mut nodes, &mut numbers[..places - 1]);
    // the last number, which stands behind `1 `
    let place = LINE.front.len() + pieces * LINE.piece.len() + 2;
    assert_eq!(refused(short), (4, place));
    assert!(numbers[..places - 1].iter().all(|place| *place == 0));
    let tree = read_into(&text, &mut nodes, &mut numbers).unwrap();
    assert_eq!(tree.number_count(), 2 * pieces + 2);

    let (text, pieces) = SORTS[5].text(TEXT_LIMIT);
    let mut nodes = vec![7; (pieces + 1) * NODE_WIDTH];
    let mut numbers = [7; 2 * NUMBER_WIDTH];
    let short = read_into(&text, &mut nodes, &mut numbers);
    // the last line string, at its `(`
    let place = SORTS[5].front.len() + pieces * SORTS[5].piece.len();
    assert_eq!(refused(short), (3, place));
}

#[test]
fn enough_rows_suffice_for_the_densest_texts() {
    assert_eq!(enough_rows(TEXT_LIMIT), 2_097_152);
    for sort in &SORTS {
        let (text, _) = sort.text(TEXT_LIMIT);
        let mut nodes = vec![7; enough_rows(TEXT_LIMIT) * NODE_WIDTH];
        let mut numbers = vec![7; enough_rows(TEXT_LIMIT) * NUMBER_WIDTH];
        assert!(read_into(&text, &mut nodes, &mut numbers).is_ok());
    }
}

#[test]
fn a_type_is_inferred_of_a_text_up_to_the_limit() {
    let text = format!("POINT Z({}", "1".repeat(TEXT_LIMIT - "POINT Z(".len()));
    assert_eq!(infer_type(&text), Ok((Kind::Point, Dimension::XYZ)));
    assert_eq!(refused(infer_type(&(text + "1"))), (1, 4_194_304));
}

#[test]
fn a_long_text_has_boxes_and_a_strict_check() {
    let (text, _) = LINE.text(TEXT_LIMIT);
    let tree = read(&text).unwrap();
    let bounds = tree.bounds(0).unwrap().unwrap();
    assert_eq!((bounds.low_x, bounds.high_x), (10_000_000, 10_000_000));
    assert_eq!(bounds.low_y, 20_000_000);
    assert_eq!(tree.strict(), Ok(()));
    let ring = |last: &str| format!("POLYGON((0 0,{}{last}))", "1 2,".repeat(1_000_000));
    assert_eq!(read(&ring("0 0")).unwrap().strict(), Ok(()));
    let open = ring("0 1");
    let fault = read(&open).unwrap().strict().unwrap_err();
    assert_eq!((fault.rule, fault.row), ('C', 1));
}
