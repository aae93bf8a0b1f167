//! A box beside each node: its sides in units, what is refused, and which boxes touch a rectangle.
use doorhollow::{
    box_rows, read, read_into, read_stored, refusals, Bounds, Refusal, Tree, BOX_WIDTH,
    UNITS_IN_ONE,
};

fn bounds(low_x: i64, high_x: i64, low_y: i64, high_y: i64) -> Bounds {
    Bounds {
        low_x,
        high_x,
        low_y,
        high_y,
    }
}

fn boxes(text: &str) -> Vec<Option<Bounds>> {
    let tree = read(text).expect(text);
    (0..tree.node_count())
        .map(|row| tree.bounds(row).expect(text))
        .collect()
}

fn refused(text: &str) -> (u32, usize) {
    let tree = read(text).expect(text);
    let refusal = tree.boxes().expect_err(text);
    assert_eq!(tree.bounds(0), Err(refusal), "{text}");
    (refusal.number, refusal.place)
}

/// The sides of a number as an X, which are the same as a Y.
fn sides(number: &str) -> (i64, i64) {
    let text = format!("POINT({number} {number})");
    let found = boxes(&text)[0].expect(&text);
    assert_eq!(
        (found.low_x, found.high_x),
        (found.low_y, found.high_y),
        "{number}"
    );
    (found.low_x, found.high_x)
}

#[test]
fn whole_units_stay_as_they_are() {
    let exact = [
        ("0", 0),
        ("-0", 0),
        ("-0.00e7", 0),
        ("1", UNITS_IN_ONE),
        ("+1", UNITS_IN_ONE),
        ("++1", UNITS_IN_ONE),
        ("1.5", 15_000_000),
        ("-1.5", -15_000_000),
        (".0000001", 1),
        ("-1e-7", -1),
        ("0.00000010000000000000000000000", 1),
        ("123456789.1234567", 1_234_567_891_234_567),
        ("00000000000000000000000000000000000001.", UNITS_IN_ONE),
        ("0.000000000000000000000000000012E29", 12_000_000),
        ("120000000000000000000000000000e-29", 12_000_000),
        ("10000000000", 100_000_000_000_000_000),
        ("-1e10", -100_000_000_000_000_000),
        ("0e9999", 0),
        ("0e-9999", 0),
    ];
    for (number, side) in exact {
        assert_eq!(sides(number), (side, side), "{number}");
    }
}

#[test]
fn others_are_rounded_outward() {
    let between = [
        ("0.00000005", 0, 1),
        ("-0.00000005", -1, 0),
        ("0.00000001", 0, 1),
        ("-0.00000009", -1, 0),
        ("1.00000001", 10_000_000, 10_000_001),
        ("-1.00000001", -10_000_001, -10_000_000),
        ("-1.99999999", -20_000_000, -19_999_999),
        ("1e-9999", 0, 1),
        ("-1e-9999", -1, 0),
        ("0.1234567000000000000000000000001", 1_234_567, 1_234_568),
        (
            "9999999999.99999999",
            99_999_999_999_999_999,
            100_000_000_000_000_000,
        ),
        (
            "-9999999999.99999999",
            -100_000_000_000_000_000,
            -99_999_999_999_999_999,
        ),
    ];
    for (number, low, high) in between {
        assert_eq!(sides(number), (low, high), "{number}");
    }
}

/// A box whose sides are whole numbers of the text.
fn whole(low_x: i64, high_x: i64, low_y: i64, high_y: i64) -> Option<Bounds> {
    let one = UNITS_IN_ONE;
    Some(bounds(low_x * one, high_x * one, low_y * one, high_y * one))
}

#[test]
fn nodes_in_each_other() {
    let text = "GEOMETRYCOLLECTION(POINT EMPTY,\
                GEOMETRYCOLLECTION(MULTIPOINT(1 -2,3 4),GEOMETRYCOLLECTION EMPTY),\
                POLYGON((-5 0,0 5,5 0,-5 0),EMPTY,(7 7)),\
                LINESTRING M EMPTY,MULTIPOLYGON(EMPTY,((0 9))))";
    let expected = [
        whole(-5, 7, -2, 9),
        None,
        whole(1, 3, -2, 4),
        whole(1, 3, -2, 4),
        whole(1, 1, -2, -2),
        whole(3, 3, 4, 4),
        None,
        whole(-5, 7, 0, 7),
        whole(-5, 5, 0, 5),
        None,
        whole(7, 7, 7, 7),
        None,
        whole(0, 0, 9, 9),
        None,
        whole(0, 0, 9, 9),
        whole(0, 0, 9, 9),
    ];
    assert_eq!(boxes(text), expected);
    assert_eq!(boxes("GEOMETRYCOLLECTION EMPTY"), [None]);
}

#[test]
fn there_is_no_such_node() {
    let tree = read("POINT(1 2)").unwrap();
    assert_eq!(tree.bounds(0), Ok(whole(1, 1, 2, 2)));
    assert_eq!(tree.bounds(1), Ok(None));
    assert_eq!(tree.bounds(usize::MAX), Ok(None));
}

#[test]
fn z_and_m_are_not_looked_at() {
    for text in [
        "POINT Z(1 2 +inf)",
        "POINT M(1 2 -nan)",
        "POINT ZM(1 2 1e99 1e99999)",
    ] {
        assert_eq!(boxes(text), [whole(1, 1, 2, 2)], "{text}");
    }
    assert_eq!(
        boxes("LINESTRING ZM(1 2 9 9,-3 4 9 9)"),
        [whole(-3, 1, 2, 4)]
    );
}

#[test]
fn numbers_that_no_box_holds() {
    let cases = [
        ("POINT(1 +inf)", 30, 9),
        ("POINT(1 -inf)", 30, 8),
        ("POINT(+Infinity 1)", 30, 7),
        ("POINT(-NaN 1)", 30, 6),
        ("POINT(1 10000000000.00000001)", 31, 8),
        ("POINT(-10000000000.0000001 1)", 31, 6),
        ("POINT(1 +1e11)", 31, 9),
        ("POINT(1 ++1e11)", 31, 9),
        ("POINT(1 1e9999)", 31, 8),
        ("POINT(1 0e10000)", 31, 8),
        ("POINT(1 1e-10000)", 31, 8),
        ("POINT(1 1e-99999999999999999999999999999999)", 31, 8),
    ];
    for (text, number, place) in cases {
        assert_eq!(refused(text), (number, place), "{text}");
    }
}

#[test]
fn the_first_such_number_is_told() {
    let cases = [
        ("LINESTRING(1 2,3 -nan,1e99 4)", 30, 17),
        ("LINESTRING(1 2,1e99 -nan)", 31, 15),
        ("LINESTRING Z(1 2 -inf,3 1e99 4)", 31, 24),
        (
            "GEOMETRYCOLLECTION(POINT EMPTY,POLYGON((0 0,1e99 1)),POINT(+inf 1))",
            31,
            44,
        ),
    ];
    for (text, number, place) in cases {
        assert_eq!(refused(text), (number, place), "{text}");
    }
    let refusal = Refusal {
        number: refusals::NO_FINITE_NUMBER,
        place: 9,
    };
    assert_eq!(
        refusal.explain("POINT(1 +inf)"),
        "refused 30 9: An X or Y is inf or nan, which has no place in a box\n\
         POINT(1 +inf)\n         ^\n"
    );
}

const NO_ROWS: [usize; 0] = [];

#[test]
fn rows_that_touch_a_rectangle() {
    let text = "GEOMETRYCOLLECTION(POINT(0 0),POINT EMPTY,LINESTRING(2 2,4 8),POINT(10 10))";
    let tree = read(text).unwrap();
    let touching = |low_x, high_x, low_y, high_y| -> Vec<usize> {
        let boxes = tree.boxes().unwrap();
        boxes
            .touching(bounds(low_x, high_x, low_y, high_y))
            .collect()
    };
    let [two, four, eight, ten] = [2, 4, 8, 10].map(|side| side * UNITS_IN_ONE);
    assert_eq!(touching(0, ten, 0, ten), [0, 1, 3, 4], "all of it");
    assert_eq!(touching(0, 0, 0, 0), [0, 1], "a point");
    assert_eq!(touching(four, ten, eight, ten), [0, 3, 4], "at a corner");
    assert_eq!(touching(four + 1, ten, eight, ten), [0, 4], "beside it");
    assert_eq!(touching(four, ten, eight + 1, ten), [0, 4], "above it");
    assert_eq!(touching(1, two, 1, two), [0, 3], "at the other corner");
    assert_eq!(touching(1, two - 1, 1, two), [0], "beside it, in the whole");
    assert_eq!(
        touching(two + 1, four - 1, two + 1, two + 2),
        [0, 3],
        "inside"
    );
    assert_eq!(touching(two + 1, two + 1, 1, ten), [0, 3], "across it");
    assert_eq!(touching(ten + 1, 2 * ten, 0, ten), NO_ROWS, "by one unit");
    assert_eq!(touching(-ten, -1, 0, ten), NO_ROWS);
    assert_eq!(touching(0, ten, ten + 1, i64::MAX), NO_ROWS);
    assert_eq!(touching(0, ten, i64::MIN, -1), NO_ROWS);
    assert_eq!(
        touching(i64::MIN, i64::MAX, i64::MIN, i64::MAX),
        [0, 1, 3, 4]
    );
}

#[test]
fn a_rectangle_without_points_touches_nothing() {
    let tree = read("POLYGON((0 0,10 0,10 10,0 0))").unwrap();
    let boxes = tree.boxes().unwrap();
    let none = [
        bounds(7, 5, 0, 10),
        bounds(0, 10, 7, 5),
        bounds(7, 5, 7, 5),
        bounds(i64::MAX, i64::MIN, 0, 10),
    ];
    for rectangle in none {
        assert_eq!(boxes.touching(rectangle).next(), None, "{rectangle:?}");
        assert!(!rectangle.touches(rectangle));
    }
    assert_eq!(boxes.touching(bounds(5, 5, 5, 5)).count(), 2);
}

#[test]
fn a_table_that_is_lent() {
    let (mut nodes, mut numbers) = ([0; 9], [0; 8]);
    let tree = read_into("MULTIPOINT(1 2,3 4)", &mut nodes, &mut numbers).unwrap();
    let fill = |table: &mut [i64]| {
        let (text, nodes) = (tree.text(), tree.node_rows());
        box_rows(text, nodes, tree.number_rows(), table)
    };
    let mut table = [7; 3 * BOX_WIDTH + 4];
    assert_eq!(fill(&mut table), Ok(()));
    let boxes = tree.boxes().unwrap();
    assert_eq!(&table[..15], boxes.table());
    assert_eq!(table[15..], [0; 4]);
    assert_eq!(
        table[5..10],
        [1, 10_000_000, 10_000_000, 20_000_000, 20_000_000]
    );
    let short = Refusal {
        number: refusals::NO_ROOM,
        place: 0,
    };
    assert_eq!(fill(&mut table[..14]), Err(short));
    assert_eq!((&table[..14], table[14]), (&[0; 14][..], 40_000_000));
    assert_eq!(fill(&mut []), Err(short));
}

#[test]
fn what_is_refused_first() {
    let number_of = |text: &[u8], nodes: &[u32], numbers: &[u32], places: usize| {
        let mut table = vec![7; places];
        let refusal = box_rows(text, nodes, numbers, &mut table).unwrap_err();
        assert!(table.iter().all(|place| *place == 0));
        refusal.number
    };
    let (point, spans) = ([1, 0, 1], [0, 3, 4, 1]);
    assert_eq!(number_of(b"inf 2", &point, &spans, 5), 30);
    assert_eq!(number_of(b"inf 2", &point, &spans, 4), 23);
    assert_eq!(number_of(b"inf x", &point, &spans, 5), 22, "no number");
    assert_eq!(number_of(b"inf x", &point, &spans, 4), 22);
    assert_eq!(number_of(b"inf 2", &point, &spans[..2], 5), 22, "no Y");
    assert_eq!(number_of(b"inf 2", &[1, 0, 1, 1], &spans, 5), 22);
    assert_eq!(number_of(b"inf 2", &[], &[], 0), 22, "no root");
}

#[test]
fn stored_trees_have_the_same_boxes() {
    let tree = read("MULTILINESTRING Z((1.5 2 3,4 5 +inf),EMPTY)").unwrap();
    let kept = tree.to_stored().unwrap();
    let back = read_stored(&kept).unwrap();
    assert_eq!(back.boxes(), tree.boxes());
    let infinite = read("POINT(1 +inf)").unwrap().to_stored().unwrap();
    let refusal = read_stored(&infinite).unwrap().boxes().unwrap_err();
    assert_eq!(refusal.number, refusals::NO_FINITE_NUMBER);
    assert_eq!(&infinite[refusal.place..], b"inf");
}

#[test]
fn boxes_are_kept_with_the_tree() {
    let tree = read("LINESTRING(1 2,3 4)").unwrap();
    let first: *const _ = tree.boxes().unwrap();
    assert!(std::ptr::eq(first, tree.boxes().unwrap()));
    let again = tree.clone();
    assert_eq!(again.bounds(0), tree.bounds(0));
    fn shared<T: Send + Sync>(_: &T) {}
    shared(&tree);
}

/// Marsaglia's xorshift from a fixed seed.
struct Random(u64);

impl Random {
    fn below(&mut self, end: u64) -> u64 {
        self.0 ^= self.0 << 13;
        self.0 ^= self.0 >> 7;
        self.0 ^= self.0 << 17;
        self.0 % end
    }

    fn number(&mut self) -> String {
        let sign = ["", "-"][self.below(2) as usize];
        let whole = self.below(1_000);
        let digits = self.below(12) as usize;
        let fraction: String = (0..digits)
            .map(|_| char::from(b'0' + self.below(10) as u8))
            .collect();
        format!("{sign}{whole}.{fraction}")
    }

    fn coordinates(&mut self) -> String {
        match self.below(4) {
            0 => "EMPTY".to_string(),
            count => {
                let coordinate = |random: &mut Random| random.number() + " " + &random.number();
                let all: Vec<String> = (0..count).map(|_| coordinate(self)).collect();
                format!("({})", all.join(","))
            }
        }
    }

    fn shape(&mut self, depth: u64) -> String {
        if depth == 0 || self.below(3) == 0 {
            return format!("LINESTRING {}", self.coordinates());
        }
        let children = 1 + self.below(3);
        let below: Vec<String> = (0..children).map(|_| self.shape(depth - 1)).collect();
        format!("GEOMETRYCOLLECTION({})", below.join(","))
    }
}

/// The whole units below and above a number with a point and at most 11 digits after it.
fn reckoned(number: &str) -> (i64, i64) {
    let (whole, fraction) = number.split_once('.').unwrap();
    // all digits together, so that `-0.5` keeps its sign
    let size: i64 = format!("{whole}{fraction:0<11}").parse().unwrap();
    let parts_in_unit = 10_000;
    let low = size.div_euclid(parts_in_unit);
    (low, low + i64::from(size.rem_euclid(parts_in_unit) != 0))
}

/// The box around all coordinates in and below a node, from each of them.
fn around(tree: &Tree<'_>, index: usize) -> Option<Bounds> {
    let own = tree.coordinates(index).map(|coordinate| {
        let (x, y) = (reckoned(coordinate.x()), reckoned(coordinate.y()));
        bounds(x.0, x.1, y.0, y.1)
    });
    let below = tree.children(index).filter_map(|child| around(tree, child));
    own.chain(below).reduce(|a, b| {
        bounds(
            a.low_x.min(b.low_x),
            a.high_x.max(b.high_x),
            a.low_y.min(b.low_y),
            a.high_y.max(b.high_y),
        )
    })
}

#[test]
fn each_box_is_that_around_its_coordinates() {
    let mut random = Random(0x9E37_79B9_7F4A_7C15);
    for _ in 0..2_000 {
        let text = random.shape(4);
        let tree = read(&text).unwrap();
        for row in 0..tree.node_count() {
            assert_eq!(tree.bounds(row), Ok(around(&tree, row)), "{row} of {text}");
        }
    }
}
