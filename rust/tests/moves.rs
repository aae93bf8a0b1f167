//! Stored bytes moved from one version to the other: what comes out, what is refused, and how all that is lent is left.
use doorhollow::{
    move_stored, move_stored_into, read, read_stored_as, read_stored_into, write_stored_rows,
    Moved, Refusal, Version, NODE_WIDTH, NUMBER_WIDTH,
};
use Version::{One, Two};

const DIMENSIONS: [(&str, &str); 4] = [
    ("", "1 -2.5"),
    (" Z", "+3 4e5 .6"),
    (" M", "7 ++8 +inf"),
    (" ZM", "0 00 -nan 1E-9"),
];

/// So many parts in parentheses, or EMPTY.
fn listed(parts: usize, part: &str) -> String {
    if parts == 0 {
        return "EMPTY".to_string();
    }
    format!("({})", vec![part; parts].join(","))
}

/// Texts of every kind and dimension with up to four parts, of which each has as many parts, if it has any; and a
/// collection of them all.
fn texts() -> Vec<String> {
    let mut texts = Vec::new();
    for (dimension, coordinate) in DIMENSIONS {
        for parts in 0..5 {
            let line = listed(parts, coordinate);
            let lines = listed(parts, &line);
            let point = format!("POINT{dimension} {}", listed(parts.min(1), coordinate));
            let points = listed(parts, &point);
            texts.extend([
                format!("GEOMETRYCOLLECTION{dimension} {points}"),
                point,
                format!("LINESTRING{dimension} {line}"),
                format!("POLYGON{dimension} {lines}"),
                format!("MULTIPOINT{dimension} {line}"),
                format!("MULTILINESTRING{dimension} {lines}"),
                format!("MULTIPOLYGON{dimension} {}", listed(parts, &lines)),
            ]);
        }
    }
    texts.push(format!("GEOMETRYCOLLECTION({})", texts.join(",")));
    let depth = 31;
    let (front, back) = ("GEOMETRYCOLLECTION(".repeat(depth), ")".repeat(depth));
    texts.push(format!("{front}POINT(1 2){back}"));
    texts
}

fn stored(text: &str, version: Version) -> Vec<u8> {
    read(text).unwrap().to_stored_as(version).unwrap()
}

/// What a call is lent, full of ones.
struct Lent {
    nodes: Vec<u32>,
    numbers: Vec<u32>,
    out: Vec<u8>,
}

impl Lent {
    fn of(node_places: usize, number_places: usize, room: usize) -> Lent {
        Lent {
            nodes: vec![u32::MAX; node_places],
            numbers: vec![u32::MAX; number_places],
            out: vec![u8::MAX; room],
        }
    }

    /// More than any of these bytes needs, with places that are no whole row.
    fn ample(bytes: &[u8]) -> Lent {
        let rows = bytes.len() / 3 + 1;
        Lent::of(3 * rows + 2, 2 * rows + 1, 2 * bytes.len() + 20)
    }

    fn moved(&mut self, bytes: &[u8], to: Version) -> Result<Moved, Refusal> {
        move_stored_into(bytes, to, &mut self.nodes, &mut self.numbers, &mut self.out)
    }

    /// The number and the place of the refusal, after which all is zero.
    fn refused(mut self, bytes: &[u8], to: Version) -> (u32, usize) {
        let refusal = self.moved(bytes, to).expect_err("refused");
        assert!(self.nodes.iter().all(|place| *place == 0), "{refusal}");
        assert!(self.numbers.iter().all(|place| *place == 0), "{refusal}");
        assert!(self.out.iter().all(|byte| *byte == 0), "{refusal}");
        (refusal.number, refusal.place)
    }
}

/// The refusal of a move with all rows and room that it needs, which is also that of `move_stored`.
fn refused(bytes: &[u8], to: Version) -> (u32, usize) {
    let refusal = move_stored(bytes, to).expect_err("refused");
    let told = (refusal.number, refusal.place);
    assert_eq!(Lent::ample(bytes).refused(bytes, to), told);
    told
}

/// The bytes of a text's tree in both versions, each of which is moved to the other.
fn assert_moved_both_ways(text: &str) {
    let (first, second) = (stored(text, One), stored(text, Two));
    let nodes = read(text).unwrap().node_count();
    assert_eq!(second.len(), first.len() + 4 + 2 * nodes);
    assert!(move_stored(&first, Two).unwrap() == second, "up");
    assert!(move_stored(&second, One).unwrap() == first, "back");
}

#[test]
fn every_kind_and_dimension_is_moved_both_ways() {
    let texts = texts();
    assert_eq!(texts.len(), 4 * 5 * 7 + 2);
    for text in texts {
        assert_moved_both_ways(&text);
    }
}

#[test]
fn up_and_back_gives_the_first_bytes_and_so_does_back_and_up() {
    for text in texts() {
        for version in Version::ALL {
            let kept = stored(&text, version);
            let there = move_stored(&kept, version.other()).unwrap();
            assert_eq!(Version::of(&there), version.other());
            assert!(move_stored(&there, version).unwrap() == kept, "{text}");
        }
    }
}

#[test]
fn each_version_has_another() {
    assert_eq!(Version::ALL.map(Version::other), [Two, One]);
}

#[test]
fn what_is_lent_is_left_as_the_reader_leaves_it() {
    for text in texts() {
        for from in Version::ALL {
            let (kept, wanted) = (stored(&text, from), stored(&text, from.other()));
            let (mut lent, mut by_reader) = (Lent::ample(&kept), Lent::ample(&kept));
            let moved = lent.moved(&kept, from.other()).unwrap();
            let (nodes, numbers) = (&mut by_reader.nodes, &mut by_reader.numbers);
            let tree = read_stored_into(&kept, from, nodes, numbers).unwrap();
            let used = (tree.node_count(), tree.number_count());
            assert_eq!((moved.nodes, moved.numbers), used, "{text}");
            assert!(lent.nodes == by_reader.nodes, "{text}");
            assert!(lent.numbers == by_reader.numbers, "{text}");
            let (written, behind) = lent.out.split_at(moved.length);
            assert!(written == wanted, "{text}");
            assert!(behind.iter().all(|byte| *byte == 0), "{text}");
        }
    }
}

#[test]
fn exactly_as_many_rows_and_bytes_as_needed_are_enough() {
    let text = "MULTIPOINT M(1 2 3,4 5 6)";
    for from in Version::ALL {
        let (kept, wanted) = (stored(text, from), stored(text, from.other()));
        let mut lent = Lent::of(3 * 3, 2 * 6, wanted.len());
        let moved = lent.moved(&kept, from.other());
        let (length, nodes, numbers) = (wanted.len(), 3, 6);
        let all = Moved {
            length,
            nodes,
            numbers,
        };
        assert_eq!(moved, Ok(all));
        assert_eq!(lent.out, wanted);
        // one byte short, or none at all
        for room in [wanted.len() - 1, 0] {
            let short = Lent::of(3 * 3, 2 * 6, room);
            assert_eq!(short.refused(&kept, from.other()), (23, 0));
        }
    }
}

#[test]
fn too_few_rows_are_refused_as_by_the_reader() {
    let text = "MULTIPOINT(1 2,3 4)";
    for (from, head, node) in [(One, 8, 7), (Two, 12, 9)] {
        let (kept, to) = (stored(text, from), from.other());
        for rows in 0..3 {
            let lent = Lent::of(3 * rows + 2, 9, 99);
            assert_eq!(lent.refused(&kept, to), (3, head + rows * node));
        }
        for rows in 0..4 {
            let lent = Lent::of(9, 2 * rows + 1, 99);
            let place = head + 3 * node + 4 * rows;
            assert_eq!(lent.refused(&kept, to), (4, place));
        }
        // before the room is
        assert_eq!(Lent::of(8, 8, 0).refused(&kept, to), (3, head + 2 * node));
        assert_eq!(
            Lent::of(9, 7, 0).refused(&kept, to),
            (4, head + 3 * node + 12)
        );
    }
}

#[test]
fn bytes_of_another_version_are_refused() {
    for version in Version::ALL {
        let mut kept = stored("POINT(1 2)", version);
        assert_eq!(
            refused(&kept, version),
            (26, 3),
            "it is of {version} already"
        );
        for other in [0, 3, 255] {
            kept[3] = other;
            assert_eq!(refused(&kept, One), (26, 3), "{other}");
            assert_eq!(refused(&kept, Two), (26, 3), "{other}");
        }
    }
}

#[test]
fn every_cut_and_every_byte_too_many_is_refused_as_by_the_reader() {
    for from in Version::ALL {
        let kept = stored("GEOMETRYCOLLECTION(POINT(1 22),LINESTRING EMPTY)", from);
        let by_reader = |bytes: &[u8]| {
            let refusal = read_stored_as(bytes, from).expect_err("refused");
            (refusal.number, refusal.place)
        };
        for cut in 0..kept.len() {
            let cut = &kept[..cut];
            let told = refused(cut, from.other());
            assert_eq!(told.0, 25);
            assert_eq!(told, by_reader(cut));
        }
        let extra = [&kept[..], &[3]].concat();
        assert_eq!(refused(&extra, from.other()), (25, kept.len()));
        assert_eq!(refused(&extra, from.other()), by_reader(&extra));
    }
}

#[test]
fn every_changed_byte_is_moved_or_refused_as_by_the_reader() {
    for from in Version::ALL {
        let kept = stored("MULTILINESTRING Z((1 2 3,4 5 +6),EMPTY)", from);
        for place in 0..kept.len() {
            for value in [0, 1, 2, 3, 7, b'1', b'x', 255] {
                let mut changed = kept.clone();
                changed[place] = value;
                let moved = move_stored(&changed, from.other());
                let tree = read_stored_as(&changed, from);
                let wanted = tree.and_then(|tree| tree.to_stored_as(from.other()));
                assert_eq!(moved, wanted, "{value} at {place}");
            }
        }
    }
}

#[test]
fn fields_that_are_no_tree_are_refused() {
    for from in Version::ALL {
        let mut kept = stored("POINT(1 2)", from);
        *kept.last_mut().unwrap() = b'x';
        assert_eq!(refused(&kept, from.other()), (22, 0));
    }
}

#[test]
fn bytes_over_the_limit_are_refused_first() {
    for from in Version::ALL {
        let mut bytes = stored("POINT(1 2)", from);
        let length = bytes.len();
        bytes.resize(from.limit(), 0);
        let lent = || Lent::of(3, 4, 100);
        assert_eq!(lent().refused(&bytes, from.other()), (25, length));
        bytes.push(0);
        let over = (1, from.limit());
        assert_eq!(lent().refused(&bytes, from.other()), over);
        let refusal = move_stored(&bytes, from.other()).unwrap_err();
        assert_eq!((refusal.number, refusal.place), over);
        // and before the version is looked at
        bytes[3] = 3;
        assert_eq!(lent().refused(&bytes, from.other()), over);
    }
}

/// A line of so many coordinates, all the same.
fn line(coordinates: usize, coordinate: &str) -> String {
    let dimension = ["", " Z", " ZM"][coordinate.split(' ').count() - 2];
    format!("LINESTRING{dimension}{}", listed(coordinates, coordinate))
}

fn collection_of(points: usize) -> String {
    format!("GEOMETRYCOLLECTION{}", listed(points, "POINT EMPTY"))
}

/// A line whose stored bytes of version 1 are so many, with numbers of up to 65,535 bytes.
fn line_of_stored_length(length: usize) -> String {
    let fields = 16;
    let digits = length - 8 - 7 - 3 * fields;
    let texts = (0..fields).map(|i| "1".repeat((digits + i) / fields));
    let texts: Vec<String> = texts.collect();
    let all: Vec<String> = texts.chunks(2).map(|pair| pair.join(" ")).collect();
    format!("LINESTRING({})", all.join(","))
}

/// Texts whose trees are as large as version 1 takes, each in another way.
fn largest() -> [String; 4] {
    [
        line(21_845, "1 2 3"),
        collection_of(65_534),
        format!("MULTILINESTRING{}", listed(65_534, "EMPTY")),
        line_of_stored_length(1_048_576),
    ]
}

/// Texts whose trees are too large for version 1, by as little as can be.
fn too_large() -> [String; 5] {
    [
        line(32_768, "1 2"),
        line(16_384, "1 2 3 4"),
        collection_of(65_535),
        format!("MULTILINESTRING{}", listed(65_535, "EMPTY")),
        line_of_stored_length(1_048_577),
    ]
}

#[test]
fn the_largest_that_fits_version_1_is_moved_both_ways() {
    for text in largest() {
        assert_moved_both_ways(&text);
    }
    let text = line_of_stored_length(1_048_576);
    assert_eq!(stored(&text, One).len(), One.limit());
}

#[test]
fn what_does_not_fit_version_1_is_not_moved_back() {
    for text in too_large() {
        let second = stored(&text, Two);
        assert_eq!(refused(&second, One), (27, 0));
    }
    let text = line_of_stored_length(1_048_577);
    assert_eq!(read(&text).unwrap().stored_length(One), One.limit() + 1);
}

#[test]
fn more_than_65535_parts_are_not_moved_back() {
    for text in [
        line(65_536, "1 2"),
        format!("POLYGON{}", listed(65_536, "EMPTY")),
    ] {
        assert_eq!(refused(&stored(&text, Two), One), (27, 0));
    }
}

#[test]
fn too_large_comes_before_too_small_a_room() {
    for text in too_large() {
        let tree = read(&text).unwrap();
        let (node_places, number_places) = (tree.node_rows().len(), tree.number_rows().len());
        let second = tree.to_stored_as(Two).unwrap();
        for room in [0, 1, second.len()] {
            let lent = Lent::of(node_places, number_places, room);
            assert_eq!(lent.refused(&second, One), (27, 0));
        }
    }
}

#[test]
fn what_the_reader_refuses_comes_before_too_large() {
    for text in too_large() {
        let tree = read(&text).unwrap();
        let (node_places, number_places) = (tree.node_rows().len(), tree.number_rows().len());
        let mut second = tree.to_stored_as(Two).unwrap();
        let short = Lent::of(node_places - 1, number_places, 9);
        assert_eq!(short.refused(&second, One).0, 3);
        if number_places > 0 {
            let short = Lent::of(node_places, number_places - 1, 9);
            assert_eq!(short.refused(&second, One).0, 4);
        }
        let last = second.pop().unwrap();
        assert_eq!(refused(&second, One).0, 25);
        second.extend([last, 3]);
        assert_eq!(refused(&second, One), (25, second.len() - 1));
        second.pop();
        // the dimension of the first node
        second[16] = 4;
        assert_eq!(refused(&second, One).0, 22);
        second[3] = 1;
        assert_eq!(refused(&second, One), (26, 3));
    }
}

#[test]
fn the_longest_of_version_2_is_read_whole_before_it_is_refused() {
    // 1,024 numbers over the same digits, of which all but the last are as long as can be
    let (limit, count) = (Two.limit(), 1_024);
    let last = limit - 12 - 9 - 3 * count - 65_535 * (count - 1);
    let mut spans = [0, 65_535].repeat(count - 1);
    spans.extend([0, last as u32]);
    let mut bytes = vec![0; limit];
    let written = write_stored_rows(Two, &[b'1'; 65_535], &[2, 0, 512], &spans, &mut bytes);
    assert_eq!(written, Ok(limit));
    let lent = || Lent::of(NODE_WIDTH, NUMBER_WIDTH * count, 1_000);
    assert_eq!(lent().refused(&bytes, One), (27, 0));
    *bytes.last_mut().unwrap() = b'x';
    assert_eq!(lent().refused(&bytes, One), (22, 0));
}

#[test]
fn a_head_that_lies_is_refused() {
    let all = [0xFF; 40];
    for from in Version::ALL {
        let mut bytes = stored("POINT(1 2)", from);
        bytes[4..7].copy_from_slice(&all[..3]);
        assert_eq!(refused(&bytes, from.other()).0, 25);
        let head = [&[1, 0, [5, 9][from as usize - 1], from.number()], &all[..8]].concat();
        assert_eq!(refused(&head, from.other()).0, 25);
    }
    // more nodes than version 1 counts, of which there are none
    let bytes = b"\x01\0\x09\x02\0\x01\0\0\0\0\0\0";
    assert_eq!(refused(bytes, One), (25, 12));
}
