//! The records of the replay program: a u32 with the count of the bytes that
//! follow, then a letter, the letter's fields and rows as u32 each, and the text.
//! Every number is little-endian.

pub const MAX_TEXT: usize = 131_072;
pub const MAX_SLICE: u32 = 98_304;
pub const MAX_OUTPUT: u32 = 262_144;

/// The rows of a store, place by place: kind, dimension and parts of each node, start
/// and length of each number.
#[derive(Clone, Debug, Default, PartialEq, Eq)]
pub struct Rows {
    pub nodes: Vec<u32>,
    pub numbers: Vec<u32>,
}

/// A move of stored bytes, lent two slices and an output of these lengths.
#[derive(Clone, Copy, Debug, PartialEq, Eq)]
pub struct Move {
    /// The version that is read.
    pub from: u8,
    /// The version that is written.
    pub to: u8,
    pub nodes: u32,
    pub numbers: u32,
    pub output: u32,
}

/// What is asked of a text: the letter with its fields and rows.
#[derive(Clone, Debug, PartialEq, Eq)]
pub enum Request {
    /// `t`: so many tokens taken, from a place on.
    Take { place: u32, count: u32 },
    /// `p`: the same, each token looked at twice before it is taken.
    LookAndTake { place: u32, count: u32 },
    /// `r`: the reader, lent two slices of these lengths.
    Read { nodes: u32, numbers: u32 },
    /// `w`: the writer, lent these rows and an output of this length.
    Write { output: u32, rows: Rows },
    /// `s`: the strict check, lent these rows.
    Check { rows: Rows },
    /// `i`: infer_type.
    Infer,
    /// `S`: the stored writer of a version, lent these rows and an output of this length.
    WriteStored {
        version: u8,
        output: u32,
        rows: Rows,
    },
    /// `L`: the stored reader of a version, lent two slices of these lengths; the text is
    /// the stored bytes.
    ReadStored {
        version: u8,
        nodes: u32,
        numbers: u32,
    },
    /// `m`: the move from a version to a version; the text is the stored bytes.
    Move(Move),
    /// `b`: the boxes, lent these rows and a table of so many i64 places.
    Boxes { table: u32, rows: Rows },
}

#[derive(Clone, Debug, PartialEq, Eq)]
pub struct Record<'text> {
    pub request: Request,
    pub text: &'text [u8],
}

impl Request {
    pub fn letter(&self) -> u8 {
        match self {
            Request::Take { .. } => b't',
            Request::LookAndTake { .. } => b'p',
            Request::Read { .. } => b'r',
            Request::Write { .. } => b'w',
            Request::Check { .. } => b's',
            Request::Infer => b'i',
            Request::WriteStored { .. } => b'S',
            Request::ReadStored { .. } => b'L',
            Request::Move(_) => b'm',
            Request::Boxes { .. } => b'b',
        }
    }

    /// The rows that are lent, if any are.
    pub fn rows(&self) -> Option<&Rows> {
        match self {
            Request::Write { rows, .. }
            | Request::Check { rows }
            | Request::WriteStored { rows, .. }
            | Request::Boxes { rows, .. } => Some(rows),
            _ => None,
        }
    }

    /// The same with other rows, if any are lent.
    pub fn with_rows(&self, other: Rows) -> Self {
        let mut request = self.clone();
        match &mut request {
            Request::Write { rows, .. }
            | Request::Check { rows }
            | Request::WriteStored { rows, .. }
            | Request::Boxes { rows, .. } => *rows = other,
            _ => {}
        }
        request
    }

    /// The fields, and the rows behind them.
    fn fields(&self) -> Vec<u32> {
        match self {
            Request::Take { place, count } | Request::LookAndTake { place, count } => {
                vec![*place, *count]
            }
            Request::Read { nodes, numbers } => vec![*nodes, *numbers],
            Request::Write { output, rows } => [vec![*output], rows.fields()].concat(),
            Request::Check { rows } => rows.fields(),
            Request::Infer => vec![],
            Request::WriteStored {
                version,
                output,
                rows,
            } => [vec![u32::from(*version), *output], rows.fields()].concat(),
            Request::ReadStored {
                version,
                nodes,
                numbers,
            } => vec![u32::from(*version), *nodes, *numbers],
            Request::Move(asked) => asked.fields().to_vec(),
            Request::Boxes { table, rows } => [vec![*table], rows.fields()].concat(),
        }
    }
}

impl Move {
    fn fields(&self) -> [u32; 5] {
        let [from, to] = [self.from, self.to].map(u32::from);
        [from, to, self.nodes, self.numbers, self.output]
    }
}

impl Rows {
    fn fields(&self) -> Vec<u32> {
        let lengths = [&self.nodes, &self.numbers].map(|slice| slice.len() as u32);
        [&lengths, &self.nodes[..], &self.numbers[..]].concat()
    }
}

impl<'text> Record<'text> {
    /// Appends the record, its count first.
    pub fn encode(&self, out: &mut Vec<u8>) {
        let fields = self.request.fields();
        let count = 1 + 4 * fields.len() + self.text.len();
        let count = u32::try_from(count).expect("a record is shorter than 4 GiB");
        out.extend(count.to_le_bytes());
        out.push(self.request.letter());
        for field in fields {
            out.extend(field.to_le_bytes());
        }
        out.extend(self.text);
    }

    /// Reads what follows a record's count. `None` is a bad record: fields that
    /// are cut, a text or a slice too large, or a letter without an answer here.
    pub fn decode(bytes: &'text [u8]) -> Option<Self> {
        let (&letter, rest) = bytes.split_first()?;
        let (request, text) = match letter {
            b't' | b'p' => {
                let (place, rest) = take_u32(rest)?;
                let (count, rest) = take_u32(rest)?;
                let request = match letter {
                    b't' => Request::Take { place, count },
                    _ => Request::LookAndTake { place, count },
                };
                (request, rest)
            }
            b'r' => {
                let (nodes, rest) = take_u32(rest)?;
                let (numbers, rest) = take_u32(rest)?;
                (Request::Read { nodes, numbers }, rest)
            }
            b'i' => (Request::Infer, rest),
            _ => return None,
        };
        let record = Record { request, text };
        record.is_within_limits().then_some(record)
    }

    fn is_within_limits(&self) -> bool {
        let slices_fit = match &self.request {
            Request::Read { nodes, numbers } => *nodes <= MAX_SLICE && *numbers <= MAX_SLICE,
            _ => true,
        };
        slices_fit && self.text.len() <= MAX_TEXT
    }
}

/// The records in a stream of them, `None` for one that the stream's end cuts.
pub fn split(mut stream: &[u8]) -> impl Iterator<Item = Option<&[u8]>> {
    std::iter::from_fn(move || {
        if stream.is_empty() {
            return None;
        }
        let whole = take_u32(stream).and_then(|(count, rest)| {
            let count = usize::try_from(count).ok()?;
            (count <= rest.len()).then(|| rest.split_at(count))
        });
        let (record, rest) = whole.unzip();
        stream = rest.unwrap_or_default();
        Some(record)
    })
}

fn take_u32(bytes: &[u8]) -> Option<(u32, &[u8])> {
    let (number, rest) = bytes.split_first_chunk::<4>()?;
    Some((u32::from_le_bytes(*number), rest))
}

#[cfg(test)]
mod tests {
    use super::*;

    #[test]
    fn a_record_is_decoded_as_it_was_encoded() {
        let record = Record {
            request: Request::LookAndTake { place: 7, count: 2 },
            text: b"POINT(1 2)",
        };
        let mut stream = Vec::new();
        record.encode(&mut stream);
        let bodies: Vec<_> = split(&stream).collect();
        assert_eq!(bodies.len(), 1);
        assert_eq!(Record::decode(bodies[0].unwrap()), Some(record));
    }

    #[test]
    fn rows_stand_behind_their_lengths() {
        let rows = Rows {
            nodes: vec![1, 0, 1],
            numbers: vec![6, 258],
        };
        let request = Request::Write { output: 9, rows };
        let mut stream = Vec::new();
        let text = b"x";
        Record { request, text }.encode(&mut stream);
        let places: [u32; 8] = [9, 3, 2, 1, 0, 1, 6, 258];
        let places = places.map(u32::to_le_bytes).concat();
        assert_eq!(stream, [&[34, 0, 0, 0, b'w'][..], &places, b"x"].concat());
    }

    #[test]
    fn the_version_stands_before_the_other_fields() {
        let rows = Rows {
            nodes: vec![1, 0, 0],
            numbers: vec![],
        };
        let write = Request::WriteStored {
            version: 1,
            output: 15,
            rows,
        };
        let read = Request::ReadStored {
            version: 2,
            nodes: 3,
            numbers: 4,
        };
        assert_eq!(write.fields(), [1, 15, 3, 0, 1, 0, 0]);
        assert_eq!(read.fields(), [2, 3, 4]);
        assert_eq!([write.letter(), read.letter()], *b"SL");
    }

    #[test]
    fn the_versions_of_a_move_stand_before_what_is_lent() {
        let request = Request::Move(Move {
            from: 1,
            to: 2,
            nodes: 3,
            numbers: 4,
            output: 29,
        });
        let mut stream = Vec::new();
        let text = b"x";
        Record { request, text }.encode(&mut stream);
        let fields: [u32; 5] = [1, 2, 3, 4, 29];
        let fields = fields.map(u32::to_le_bytes).concat();
        assert_eq!(stream, [&[22, 0, 0, 0, b'm'][..], &fields, b"x"].concat());
    }

    #[test]
    fn the_table_stands_before_the_slices() {
        let rows = Rows {
            nodes: vec![1, 0, 0],
            numbers: vec![],
        };
        let boxes = Request::Boxes { table: 8, rows };
        assert_eq!(boxes.fields(), [8, 3, 0, 1, 0, 0]);
        assert_eq!(boxes.letter(), b'b');
    }

    #[test]
    fn cut_and_unknown_records_are_bad() {
        assert_eq!(split(&[1, 0]).collect::<Vec<_>>(), [None]);
        assert_eq!(split(&[2, 0, 0, 0, b'i']).collect::<Vec<_>>(), [None]);
        assert_eq!(Record::decode(b""), None);
        assert_eq!(Record::decode(b"x"), None);
        assert_eq!(Record::decode(b"t\0\0\0\0\0\0\0"), None);
        assert_eq!(Record::decode(&vec![b'i'; MAX_TEXT + 2]), None);
    }
}
