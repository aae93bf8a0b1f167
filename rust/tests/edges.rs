//! The edges of document 01, asked of the real library.
use doorhollow::{
    enough_rows, infer_type, read, read_into, Dimension, Kind, Refusal, NODE_WIDTH, NUMBER_WIDTH,
    TEXT_LIMIT,
};

fn refused<T>(answer: Result<T, Refusal>) -> (u32, usize) {
    let refusal = answer.err().expect("refused");
    (refusal.number, refusal.place)
}

fn rows(text: &str) -> Vec<u32> {
    read(text).expect(text).node_rows().to_vec()
}

#[test]
fn refusals_and_their_places() {
    let edges: &[(&str, u32, usize)] = &[
        ("", 8, 0),
        ("POINT", 10, 5),
        ("POINT 4x", 10, 6),
        ("POINT(x 2)", 13, 8),
        ("POINT(1 x)", 15, 8),
        ("POINT(+ 5)", 13, 8),
        ("POINT(1 \0)", 15, 8),
        ("POINT(1 ", 13, 8),
        ("MULTIPOINT(1 2,EMPTY)", 14, 15),
        ("POINTZ Z(1 2 3)", 12, 7),
        ("LINEARRINGZ(1 2 3)", 9, 0),
        ("GEOMETRYCOLLECTION(京)", 9, 19),
        ("GEOMETRYCOLLECTION(京(1 2))", 13, 22),
        ("京(1 2)", 7, 0),
        ("POINT foo", 11, 6),
        ("GEOMETRYCOLLECTION(1)", 18, 19),
        ("POINT Z(1 2)", 13, 12),
        ("POINT Z(1 2 x)", 16, 12),
        ("POINT M(1 2 x)", 17, 12),
        ("POINT(4x)", 29, 7),
        ("POINT(4x 2)", 13, 9),
        ("POINT(1 +)", 28, 8),
    ];
    for (text, number, place) in edges {
        assert_eq!(refused(read(*text)), (*number, *place), "{text:?}");
    }
}

#[test]
fn stores() {
    assert_eq!(rows("MULTIPOINT((1 2),3 4)"), [4, 0, 2, 1, 0, 1, 1, 0, 1]);
    assert_eq!(rows("GEOMETRYCOLLECTION Z(POINT(1 2))"), [7, 1, 1, 1, 0, 1]);
    assert_eq!(rows("LINEARRING Z(1 2 3)"), [2, 1, 1]);
    let tree = read("POINT(++4 +-4)").unwrap();
    assert_eq!(tree.number_rows(), [7, 2, 11, 2]);
    assert_eq!(tree.to_wkt(), "POINT(++4 -4)");
}

#[test]
fn collections_and_limits() {
    let open = |n: usize| "GEOMETRYCOLLECTION(".repeat(n) + "POINT EMPTY" + &")".repeat(n);
    assert_eq!(read(&open(32)).unwrap().node_count(), 33);
    assert_eq!(refused(read(&open(33))), (5, 626));
    assert_eq!(TEXT_LIMIT, 4_194_304);
    let long = format!("POINT(1 2){}", " ".repeat(TEXT_LIMIT - 10));
    assert_eq!(read(&long).unwrap().node_count(), 1);
    assert_eq!(refused(read(&format!("{long} "))), (1, 4_194_304));
    assert_eq!(refused(read(b"POINT(1 2)\xFF")), (2, 10));
    assert_eq!(refused(read(b"\xE4\xBA")), (2, 0));
}

#[test]
fn rooms() {
    let (mut nodes, mut numbers) = ([7; 3], [7; 4]);
    assert_eq!(
        refused(read_into("POINT(1 2)", &mut nodes[..2], &mut numbers)),
        (3, 5)
    );
    assert_eq!(nodes, [0, 0, 7], "only what was lent is zeroed");
    assert_eq!(numbers, [0; 4]);
    assert_eq!(
        refused(read_into("POINT(1 2)", &mut nodes, &mut numbers[..3])),
        (4, 8)
    );
    let tree = read_into("POINT(1 2)", &mut nodes, &mut numbers).unwrap();
    assert_eq!(
        (tree.node_rows(), tree.number_rows()),
        (&[1, 0, 1][..], &[6, 1, 8, 1][..])
    );
}

#[test]
fn enough_rows_are_half_the_bytes_and_suffice() {
    assert_eq!(
        (enough_rows(0), enough_rows(1), enough_rows(65_535)),
        (0, 0, 32_767)
    );
    // a short text, one that is a number in every second byte, and one that is refused
    let mut dense = String::from("LINESTRING(");
    dense.push_str(&["1 1"; 1_000].join(","));
    dense.push(')');
    for text in ["POINT(1 2)", &dense, "GEOMETRYCOLLECTION((((((((((((((("] {
        let rows = enough_rows(text.len());
        let mut nodes = vec![0; rows * NODE_WIDTH];
        let mut numbers = vec![0; rows * NUMBER_WIDTH];
        if let Err(refusal) = read_into(text, &mut nodes, &mut numbers) {
            assert!(
                refusal.number != 3 && refusal.number != 4,
                "{text:?}: {refusal:?}"
            );
        }
    }
}

#[test]
fn slices_are_zero_after_a_refusal_and_behind_the_used_rows() {
    let (mut nodes, mut numbers) = ([1; 30], [1; 31]);
    assert_eq!(
        refused(read_into("LINESTRING(1 2,3 x)", &mut nodes, &mut numbers)),
        (15, 17)
    );
    assert_eq!((nodes, numbers), ([0; 30], [0; 31]));
    (nodes, numbers) = ([1; 30], [1; 31]);
    assert!(read_into("POINT(1 2)", &mut nodes, &mut numbers).is_ok());
    assert_eq!(
        (&nodes[..4], &nodes[3..]),
        (&[1, 0, 1, 0][..], &[0; 27][..])
    );
    assert_eq!(
        (&numbers[..5], &numbers[4..]),
        (&[6, 1, 8, 1, 0][..], &[0; 27][..])
    );
}

#[test]
fn inferred_types() {
    assert_eq!(infer_type("POINTZ EMPTY"), Ok((Kind::Point, Dimension::XY)));
    assert_eq!(
        infer_type("multipoint zm ("),
        Ok((Kind::MultiPoint, Dimension::XYZM))
    );
    assert_eq!(
        infer_type("POLYGON M Z("),
        Ok((Kind::Polygon, Dimension::XYZ))
    );
    assert_eq!(refused(infer_type("POINTEMPTY")), (20, 0));
    assert_eq!(refused(infer_type("X")), (21, 0));
    assert_eq!(refused(infer_type(" LINEARRING(1 2)")), (19, 1));
    assert_eq!(refused(infer_type("POINT EMPTY京")), (24, 11));
}
