//! Trees by their indexes, canonical texts and the strict check.
use doorhollow::{read, read_into, strict_rows, write_rows, Dimension, Fault, Kind, Node, Refusal};

const SHAPES: &str =
    "GEOMETRYCOLLECTION(POINT(1 2),GEOMETRYCOLLECTION(POINT(3 4),LINESTRING(5 6,7 8)),\
                      POLYGON((0 0,1 0,1 1,0 0),(.5 +inf,9 ++9)),POINT EMPTY)";

#[test]
fn the_third_part_by_index() {
    let tree = read(SHAPES).unwrap();
    let third = tree.child(0, 2).unwrap();
    let kind = Kind::Polygon;
    assert_eq!(
        tree.node(third),
        Some(Node {
            kind,
            dimension: Dimension::XY,
            parts: 2
        })
    );
    assert_eq!(
        tree.children(third).collect::<Vec<_>>(),
        [third + 1, third + 2]
    );
    let second_ring: Vec<String> = tree
        .coordinates(third + 2)
        .map(|c| c.numbers().collect::<Vec<_>>().join(" "))
        .collect();
    assert_eq!(second_ring, [".5 inf", "9 +9"]);
    assert_eq!(tree.coordinate(third + 1, 2).unwrap().x(), "1");
    assert_eq!(tree.children(0).len(), 4);
    assert_eq!(
        (tree.child(0, 4), tree.child(1, 0), tree.child(99, 0)),
        (None, None, None)
    );
    assert!(tree.coordinates(0).next().is_none());
    assert!(tree.coordinate(third + 2, 2).is_none());
}

#[test]
fn a_third_coordinate_with_all_its_numbers() {
    let tree = read("LINESTRING ZM(1 2 3 4,5 6 7 8,9 10 11 +1e2)").unwrap();
    let third = tree.coordinate(0, 2).unwrap();
    assert_eq!(
        (third.x(), third.y(), third.z(), third.m()),
        ("9", "10", Some("11"), Some("1e2"))
    );
    assert_eq!(third.m().unwrap().parse::<f64>(), Ok(100.0));
    let xym = read("POINT M(1 2 3)").unwrap();
    let only = xym.coordinate(0, 0).unwrap();
    assert_eq!((only.z(), only.m()), (None, Some("3")));
}

#[test]
fn all_nodes_in_order() {
    let tree = read(SHAPES).unwrap();
    let kinds: Vec<Kind> = tree.nodes().map(|node| node.kind).collect();
    use Kind::*;
    let (c, l) = (GeometryCollection, LineString);
    assert_eq!(kinds, [c, Point, c, Point, l, Polygon, l, l, Point]);
    let firsts: Vec<usize> = tree.walk().map(|(_, _, number)| number).collect();
    assert_eq!(firsts, [0, 0, 2, 2, 4, 8, 8, 16, 20]);
    assert_eq!(tree.number_count(), 20);
    assert_eq!((tree.number(17), tree.number(20)), (Some("inf"), None));
    assert_eq!(&SHAPES[tree.number_span(19).unwrap()], "+9");
}

#[test]
fn canonical_texts_read_back() {
    let texts = [
        (
            "multipoint z(1 2 +inf, 3 4 ++5)",
            "MULTIPOINT Z((1 2 +inf),(3 4 ++5))",
        ),
        ("pointzm empty", "POINT ZM EMPTY"),
        ("LinearRing ( 1\t2 ,\n3 -nan )", "LINESTRING(1 2,3 -nan)"),
        (
            "MULTIPOLYGON(((0 0,1 0)),EMPTY,(EMPTY,(2 2)))",
            "MULTIPOLYGON(((0 0,1 0)),EMPTY,(EMPTY,(2 2)))",
        ),
        (
            "GEOMETRYCOLLECTION(POINT(1 2),LINESTRING Z EMPTY)foo",
            "GEOMETRYCOLLECTION(POINT(1 2),LINESTRING Z EMPTY)",
        ),
    ];
    for (text, canonical) in texts {
        let tree = read(text).unwrap();
        assert_eq!(tree.to_wkt(), canonical);
        assert_eq!(tree.to_string(), canonical);
        let again = read(canonical).unwrap();
        assert_eq!(again.node_rows(), tree.node_rows());
        let numbers = |t: &doorhollow::Tree<'_>| -> Vec<String> {
            (0..t.number_count())
                .map(|i| t.number(i).unwrap().to_string())
                .collect()
        };
        assert_eq!(numbers(&again), numbers(&tree));
        assert_eq!(again.to_wkt(), canonical);
    }
}

#[test]
fn a_room_that_is_too_small() {
    let tree = read("MULTIPOINT((1 2),3 4)").unwrap();
    let mut out = [1; 24];
    assert_eq!(
        tree.write_into(&mut out[..22]),
        Err(Refusal {
            number: 23,
            place: 0
        })
    );
    assert_eq!((&out[..22], &out[22..]), (&[0; 22][..], &[1, 1][..]));
    assert_eq!(tree.write_into(&mut out), Ok(23));
    assert_eq!(&out[..], b"MULTIPOINT((1 2),(3 4))\0");
}

#[test]
fn the_strict_check() {
    let fault = |text: &str| read(text).unwrap().strict().err();
    assert_eq!(fault("LINESTRING(1 2)"), Some(Fault { rule: 'A', row: 0 }));
    assert_eq!(
        fault("POLYGON((0 0,1 0,0 0))"),
        Some(Fault { rule: 'B', row: 1 })
    );
    assert_eq!(
        fault("POLYGON((0 0,1 0,1 1,0 1))"),
        Some(Fault { rule: 'C', row: 1 })
    );
    assert_eq!(
        fault("GEOMETRYCOLLECTION Z(POINT(1 2))"),
        Some(Fault { rule: 'D', row: 1 })
    );
    assert_eq!(fault("POLYGON((0 0,1 0,1 1,0 0))"), None);
    let told = fault("LINESTRING(1 2)").unwrap().to_string();
    assert_eq!(
        told,
        "a line string has fewer than 2 coordinates (rule A, row 0)"
    );
}

#[test]
fn rows_that_are_no_store() {
    let ill = Refusal {
        number: 22,
        place: 0,
    };
    let mut out = [1; 4];
    assert_eq!(write_rows(b"1 2", &[1, 0, 1], &[0, 1], &mut out), Err(ill));
    assert_eq!(out, [0; 4]);
    assert_eq!(strict_rows(b"1 2", &[1, 0, 1, 0], &[0, 1, 2, 1]), Err(ill));
    assert_eq!(strict_rows(b"1 2", &[1, 0, 1], &[0, 1, 2, 1]), Ok(None));
}

#[test]
fn lent_and_owned_rows_say_the_same() {
    let (mut nodes, mut numbers) = ([9; 64], [9; 64]);
    let lent = read_into(SHAPES, &mut nodes, &mut numbers).unwrap();
    let owned = read(SHAPES.as_bytes()).unwrap();
    assert_eq!(lent.node_rows(), owned.node_rows());
    assert_eq!(lent.number_rows(), owned.number_rows());
    assert_eq!(lent.to_wkt(), owned.to_wkt());
    assert_eq!(lent.text(), SHAPES.as_bytes());
}

#[test]
fn the_example_of_the_readme() {
    let tree = read("GEOMETRYCOLLECTION(POINT EMPTY,POINT(1 2),LINESTRING(3 4,5 +6))").unwrap();
    let third = tree.child(0, 2).unwrap();
    assert_eq!(third, 3);
    let node = Node {
        kind: Kind::LineString,
        dimension: Dimension::XY,
        parts: 2,
    };
    assert_eq!(tree.node(third), Some(node));
    assert_eq!(tree.coordinate(third, 1).unwrap().y(), "6");
    assert_eq!(
        tree.to_wkt(),
        "GEOMETRYCOLLECTION(POINT EMPTY,POINT(1 2),LINESTRING(3 4,5 6))"
    );
    assert_eq!(tree.strict(), Ok(()));
}
