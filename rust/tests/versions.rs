//! Both versions of the stored form: their bytes, what fits them, and what each entry refuses.
use doorhollow::{
    read, read_stored, read_stored_as, read_stored_into, refusals, write_stored_rows, Refusal,
    Tree, Version,
};
use Version::{One, Two};

const TEXTS: [&str; 8] = [
    "POINT(1 2)",
    "POINT Z EMPTY",
    "GEOMETRYCOLLECTION EMPTY",
    "LINESTRING M(1 2 +3,-4 5e1 .5)",
    "POLYGON((0 0,1 0,1 1,0 0),EMPTY)",
    "MULTIPOINT ZM(1 2 3 +inf,(5 6 7 ++8))",
    "MULTIPOLYGON(((0 0,1 0,1 1,0 0)),EMPTY)",
    "GEOMETRYCOLLECTION(POINT(1 2),GEOMETRYCOLLECTION Z(MULTILINESTRING((3 4,5 6),(7 8))))",
];

// POINT(1 2), field by field.
const POINT_1: [&[u8]; 4] = [
    b"\x01\x00\x05\x01\x00\x01\x00\x02",
    b"\x02\x00\x04\x01\x00\x00\x01",
    b"\x03\x00\x01\x31",
    b"\x03\x00\x01\x32",
];
const POINT_2: [&[u8]; 4] = [
    b"\x01\x00\x09\x02\x00\x00\x00\x01\x00\x00\x00\x02",
    b"\x02\x00\x06\x01\x00\x00\x00\x00\x01",
    b"\x03\x00\x01\x31",
    b"\x03\x00\x01\x32",
];

fn refused<T>(answer: Result<T, Refusal>) -> (u32, usize) {
    let refusal = answer.err().expect("refused");
    (refusal.number, refusal.place)
}

fn numbers<'a>(tree: &Tree<'a>) -> Vec<&'a str> {
    (0..tree.number_count())
        .map(|index| tree.number(index).unwrap())
        .collect()
}

fn assert_same(back: &Tree<'_>, tree: &Tree<'_>) {
    assert!(back.node_rows() == tree.node_rows());
    assert!(numbers(back) == numbers(tree));
    assert!(back.to_wkt() == tree.to_wkt());
}

/// The version that a text's tree is stored in; the tree comes back from the bytes, and from those of version 2.
fn stored_in(text: &str) -> Version {
    let tree = read(text).unwrap();
    let kept = tree.to_stored().unwrap();
    let version = Version::of(&kept);
    assert_eq!(kept.len(), tree.stored_length(version));
    assert_same(&read_stored(&kept).unwrap(), &tree);
    assert!(tree.to_stored_as(version).unwrap() == kept);
    if version == Two {
        assert_eq!(refused(tree.to_stored_as(One)), DOES_NOT_FIT);
    }
    let second = tree.to_stored_as(Two).unwrap();
    assert_same(&read_stored_as(&second, Two).unwrap(), &tree);
    version
}

const DOES_NOT_FIT: (u32, usize) = (refusals::DOES_NOT_FIT, 0);

#[test]
fn what_a_version_is() {
    assert_eq!(Version::ALL, [One, Two]);
    assert_eq!(Version::ALL.map(Version::number), [1, 2]);
    assert_eq!(Version::ALL.map(Version::limit), [1_048_576, 67_108_864]);
    assert_eq!(
        One.to_string() + ", " + &Two.to_string(),
        "version 1, version 2"
    );
    assert!(One < Two);
}

#[test]
fn byte_three_names_the_version() {
    assert_eq!(Version::of(b"\x01\0\x09\x02"), Two);
    assert_eq!(Version::of(b"xxx\x02"), Two);
    for bytes in [
        &b""[..],
        b"\x01\0\x09",
        b"\x01\0\x05\x01",
        b"\x01\0\0\x03",
        b"\x02\x02\x02\x32",
    ] {
        assert_eq!(Version::of(bytes), One, "{bytes:?}");
    }
}

#[test]
fn one_tree_in_both_versions() {
    let tree = read("POINT(1 2)").unwrap();
    for (version, fields) in [(One, POINT_1), (Two, POINT_2)] {
        let bytes = fields.concat();
        assert_eq!(tree.to_stored_as(version).unwrap(), bytes);
        assert_eq!(tree.stored_length(version), bytes.len());
        assert_same(&read_stored_as(&bytes, version).unwrap(), &tree);
        assert_same(&read_stored(&bytes).unwrap(), &tree);
    }
    assert_eq!(
        tree.to_stored().unwrap(),
        POINT_1.concat(),
        "it fits version 1"
    );
    let second = POINT_2.concat();
    let spans = [24..25, 28..29];
    let back = read_stored(&second).unwrap();
    assert_eq!([0, 1].map(|i| back.number_span(i).unwrap()), spans);
}

#[test]
fn every_kind_comes_back_from_both_versions() {
    for text in TEXTS {
        assert_eq!(stored_in(text), One, "{text}");
        let tree = read(text).unwrap();
        for version in Version::ALL {
            let kept = tree.to_stored_as(version).unwrap();
            assert_eq!(kept.len(), tree.stored_length(version), "{text}");
            let back = read_stored_as(&kept, version).unwrap();
            assert_same(&back, &tree);
            assert_eq!(back.strict(), tree.strict(), "{text}");
            // from the bytes of one version to those of either
            let both = |tree: &Tree<'_>| Version::ALL.map(|version| tree.to_stored_as(version));
            assert_eq!(both(&back), both(&tree), "{text}");
        }
    }
}

#[test]
fn each_entry_refuses_the_bytes_of_the_other() {
    let (first, second) = (POINT_1.concat(), POINT_2.concat());
    assert_eq!(refused(read_stored_as(&second, One)), (26, 3));
    assert_eq!(refused(read_stored_as(&first, Two)), (26, 3));
    let mut third = first.clone();
    third[3] = 3;
    assert_eq!(refused(read_stored_as(&third, One)), (26, 3));
    assert_eq!(refused(read_stored_as(&third, Two)), (26, 3));
    assert_eq!(refused(read_stored(&third)), (26, 3));
}

#[test]
fn a_version_is_looked_at_before_the_length_of_its_field() {
    let of_versions =
        |bytes: &[u8]| Version::ALL.map(|version| refused(read_stored_as(bytes, version)));
    let second = b"\x01\xFF\xFF\x02";
    assert_eq!(of_versions(second), [(26, 3), (25, 0)]);
    assert_eq!(refused(read_stored(second)), (25, 0));
    let first = b"\x01\xFF\xFF\x01";
    assert_eq!(of_versions(first), [(25, 0), (26, 3)]);
    assert_eq!(refused(read_stored(first)), (25, 0));
    let third = b"\x01\xFF\xFF\x03";
    assert_eq!(of_versions(third), [(26, 3), (26, 3)]);
    assert_eq!(refused(read_stored(third)), (26, 3));
    // without the tag of a head, or without byte 3, there is no version
    for bytes in [
        &b"\x02\0\x09\x02"[..],
        b"\x03\0\x05\x01",
        b"\x01\xFF\xFF",
        b"",
    ] {
        assert_eq!(of_versions(bytes), [(25, 0), (25, 0)], "{bytes:?}");
        assert_eq!(refused(read_stored(bytes)), (25, 0), "{bytes:?}");
    }
}

#[test]
fn a_cut_is_refused_at_its_field() {
    for fields in [POINT_1, POINT_2] {
        let bytes = fields.concat();
        let mut place = 0;
        for field in fields {
            for cut in place..place + field.len() {
                assert_eq!(refused(read_stored(&bytes[..cut])), (25, place), "{cut}");
            }
            place += field.len();
        }
        let extra = [&bytes[..], b"\x03"].concat();
        assert_eq!(refused(read_stored(&extra)), (25, bytes.len()));
    }
}

/// A line of so many coordinates, all the same.
fn line(coordinates: usize, coordinate: &str) -> String {
    let dimension = ["", " Z", " ZM"][coordinate.split(' ').count() - 2];
    let all = vec![coordinate; coordinates].join(",");
    format!("LINESTRING{dimension}({all})")
}

#[test]
fn more_than_65535_numbers_go_to_version_2() {
    assert_eq!(stored_in(&line(32_767, "1 2")), One, "65,534 numbers");
    assert_eq!(stored_in(&line(21_845, "1 2 3")), One, "65,535 numbers");
    assert_eq!(stored_in(&line(32_768, "1 2")), Two, "65,536 numbers");
    assert_eq!(stored_in(&line(16_384, "1 2 3 4")), Two, "65,536 numbers");
    assert_eq!(stored_in(&line(21_846, "1 2 3")), Two, "65,538 numbers");
}

#[test]
fn more_than_65535_nodes_go_to_version_2() {
    let points = |count: usize| {
        let all = vec!["POINT EMPTY"; count].join(",");
        format!("GEOMETRYCOLLECTION({all})")
    };
    assert_eq!(stored_in(&points(65_533)), One, "65,534 nodes");
    assert_eq!(stored_in(&points(65_534)), One, "65,535 nodes");
    assert_eq!(stored_in(&points(65_535)), Two, "65,536 nodes");
    assert_eq!(stored_in(&points(65_536)), Two, "65,537 nodes");
    // the same with no more than 256 parts of any node
    let nested = |count: usize| {
        let all = vec![format!("MULTILINESTRING({})", vec!["EMPTY"; 255].join(",")); count];
        format!("GEOMETRYCOLLECTION({})", all.join(","))
    };
    assert_eq!(stored_in(&nested(255)), One, "65,281 nodes");
    assert_eq!(stored_in(&nested(256)), Two, "65,537 nodes");
}

#[test]
fn more_than_65535_parts_come_back() {
    let rings = format!("POLYGON({})", vec!["EMPTY"; 65_536].join(","));
    assert_eq!(stored_in(&rings), Two);
    let coordinates = line(65_536, "1 2");
    assert_eq!(stored_in(&coordinates), Two);
    for text in [&rings, &coordinates] {
        let kept = read(text).unwrap().to_stored().unwrap();
        assert_eq!(read_stored(&kept).unwrap().root().parts, 65_536);
    }
    // 65,537 nodes in the head, and 65,536 parts in the first node
    let kept = read(&rings).unwrap().to_stored().unwrap();
    assert_eq!(kept[..12], *b"\x01\0\x09\x02\0\x01\0\x01\0\0\0\0");
    assert_eq!(kept[12..21], *b"\x02\0\x06\x03\0\0\x01\0\0");
}

/// A line whose stored bytes of version 1 are so many, with numbers of up to 65,535 bytes.
fn line_of_stored_length(length: usize) -> String {
    let fields = 16;
    let digits = length - 8 - 7 - 3 * fields;
    let texts = (0..fields).map(|i| "1".repeat((digits + i) / fields));
    let texts: Vec<String> = texts.collect();
    let all: Vec<String> = texts.chunks(2).map(|pair| pair.join(" ")).collect();
    format!("LINESTRING({})", all.join(","))
}

#[test]
fn a_whole_over_1048576_bytes_goes_to_version_2() {
    let whole = line_of_stored_length(1_048_576);
    assert_eq!(read(&whole).unwrap().stored_length(One), 1_048_576);
    assert_eq!(stored_in(&whole), One);
    let longer = line_of_stored_length(1_048_577);
    assert_eq!(read(&longer).unwrap().stored_length(One), 1_048_577);
    assert_eq!(stored_in(&longer), Two);
}

#[test]
fn a_number_text_over_65535_bytes_fits_neither() {
    let point = |length: usize| format!("POINT(1 {})", "2".repeat(length));
    assert_eq!(stored_in(&point(65_535)), One);
    let text = point(65_536);
    let tree = read(&text).unwrap();
    assert_eq!(refused(tree.to_stored_as(One)), DOES_NOT_FIT);
    assert_eq!(refused(tree.to_stored_as(Two)), DOES_NOT_FIT);
    assert_eq!(refused(tree.to_stored()), DOES_NOT_FIT);
    let mut out = vec![7; 100_000];
    for version in Version::ALL {
        out.fill(7);
        assert_eq!(
            refused(tree.write_stored_into(version, &mut out)),
            DOES_NOT_FIT
        );
        assert!(out.iter().all(|byte| *byte == 0));
    }
    // a plus that is dropped doesn't count
    let text = format!("POINT(1 +{})", "2".repeat(65_535));
    assert_eq!(stored_in(&text), One);
}

/// Rows of 1,024 numbers that make a line of so many stored bytes in version 2, of which all but the last are as long as
/// can be. Spans may overlap, so that a few digits are enough.
fn longest_line(length: usize) -> Vec<u32> {
    let count = 1_024;
    let last = length - 12 - 9 - 3 * count - 65_535 * (count - 1);
    let mut rows = [0, 65_535].repeat(count - 1);
    rows.extend([0, last as u32]);
    rows
}

#[test]
fn a_whole_over_67108864_bytes_fits_neither() {
    let digits = [b'1'; 65_535];
    let write = |version: Version, length: usize, out: &mut [u8]| {
        let spans = longest_line(length);
        write_stored_rows(version, &digits, &[2, 0, 512], &spans, out)
    };
    let limit = Two.limit();
    let mut out = vec![7; limit + 1];
    assert_eq!(write(Two, limit, &mut out), Ok(limit));
    assert_eq!(out[limit], 0);
    let back = read_stored(&out[..limit]).unwrap();
    assert_eq!((back.root().parts, back.number_count()), (512, 1_024));
    assert_eq!(back.to_stored_as(Two).as_deref(), Ok(&out[..limit]));
    assert_eq!(refused(back.to_stored_as(One)), DOES_NOT_FIT);
    assert_eq!(refused(write(Two, limit, &mut out[..limit - 1])), (23, 0));
    assert_eq!(refused(write(Two, limit + 1, &mut out)), DOES_NOT_FIT);
    assert!(out.iter().all(|byte| *byte == 0));
}

#[test]
fn stored_bytes_over_the_limit_are_refused_first() {
    for (version, fields) in [(One, POINT_1), (Two, POINT_2)] {
        let mut bytes = fields.concat();
        let length = bytes.len();
        bytes.resize(version.limit() + 1, 0);
        let over = (refusals::TEXT_TOO_LONG, version.limit());
        assert_eq!(refused(read_stored_as(&bytes, version)), over);
        assert_eq!(refused(read_stored(&bytes)), over);
        bytes.pop();
        assert_eq!(refused(read_stored(&bytes)), (25, length), "{version}");
    }
    // 1 comes before 26 too
    let mut second = POINT_2.concat();
    second.resize(One.limit(), 0);
    assert_eq!(refused(read_stored_as(&second, One)), (26, 3));
    second.push(0);
    assert_eq!(refused(read_stored_as(&second, One)), (1, 1_048_576));
    assert_eq!(refused(read_stored(&second)), (25, 29));
}

#[test]
fn lent_rows_and_rooms_in_both_versions() {
    let tree = read("MULTIPOINT(1 2,3 4)").unwrap();
    for (version, head, node) in [(One, 8, 7), (Two, 12, 9)] {
        let kept = tree.to_stored_as(version).unwrap();
        let (mut nodes, mut spans) = ([7; 10], [7; 9]);
        let back = read_stored_into(&kept, version, &mut nodes, &mut spans).unwrap();
        assert_same(&back, &tree);
        assert_eq!((nodes[9], spans[8]), (0, 0));
        let short = read_stored_into(&kept, version, &mut nodes[..8], &mut spans);
        assert_eq!(refused(short), (3, head + 2 * node));
        assert_eq!((&nodes[..8], spans), (&[0; 8][..], [0; 9]));
        let short = read_stored_into(&kept, version, &mut nodes, &mut spans[..7]);
        assert_eq!(refused(short), (4, head + 3 * node + 3 * 4));
        let mut out = vec![7; kept.len() + 1];
        assert_eq!(tree.write_stored_into(version, &mut out), Ok(kept.len()));
        assert_eq!(out, [&kept[..], &[0]].concat());
        let short = tree.write_stored_into(version, &mut out[..kept.len() - 1]);
        assert_eq!(refused(short), (23, 0));
    }
}

#[test]
fn rows_that_are_no_store_are_refused_in_both_versions() {
    let mut out = [7; 40];
    for version in Version::ALL {
        out.fill(7);
        let answer = write_stored_rows(version, b"1 x", &[1, 0, 1], &[0, 1, 2, 1], &mut out);
        assert_eq!(refused(answer), (22, 0));
        assert_eq!(out, [0; 40]);
        let mut ill = read("POINT(1 2)").unwrap().to_stored_as(version).unwrap();
        *ill.last_mut().unwrap() = b'x';
        assert_eq!(refused(read_stored(&ill)), (22, 0));
    }
}
