//! The texts that are read. The same kind and size always give the same text.

/// The longest text that the reader takes.
pub const LIMIT: usize = 4_194_304;

/// The most bytes of the texts of all tables but those of the scale and of the stack. It was the
/// limit once, and stays, so that figures can be held beside earlier ones.
pub const USUAL: usize = 65_535;

/// So many collections may be open at once.
const OPEN_COLLECTIONS: usize = 32;

#[derive(Clone, Copy, Debug, PartialEq, Eq, Hash)]
pub enum Kind {
    /// One polygon whose numbers have 15 digits.
    Polygon,
    /// Many small points.
    Points,
    /// Numbers of one digit.
    Short,
    /// A collection of all sorts.
    Mixed,
    /// Chains of as many collections in each other as may be open.
    Deep,
    /// The polygon, with a wrong last byte.
    Refused,
    /// One number, with a wrong last byte.
    Wrong,
}

pub const KINDS: [Kind; 7] = [
    Kind::Polygon,
    Kind::Points,
    Kind::Short,
    Kind::Mixed,
    Kind::Deep,
    Kind::Refused,
    Kind::Wrong,
];

impl Kind {
    pub fn name(self) -> &'static str {
        match self {
            Kind::Polygon => "polygon",
            Kind::Points => "points",
            Kind::Short => "short",
            Kind::Mixed => "mixed",
            Kind::Deep => "deep",
            Kind::Refused => "refused",
            Kind::Wrong => "wrong",
        }
    }

    pub fn named(name: &str) -> Option<Kind> {
        KINDS.into_iter().find(|kind| kind.name() == name)
    }

    /// The longest text of this kind with at most `size` bytes.
    pub fn text(self, size: usize) -> String {
        match self {
            Kind::Polygon => polygon(size),
            Kind::Points => points(size),
            Kind::Short => short(size),
            Kind::Mixed => mixed(size),
            Kind::Deep => deep(size),
            Kind::Refused => refused(size),
            Kind::Wrong => format!("{}x", "1".repeat(size - 1)),
        }
    }

    pub fn is_refused(self) -> bool {
        matches!(self, Kind::Refused | Kind::Wrong)
    }

    /// The text that is accepted and needs the same rows.
    pub fn accepted_text(self, size: usize) -> String {
        match self {
            Kind::Refused => polygon(size),
            Kind::Wrong => format!("POINT({} 1)", "1".repeat(size - "POINT( 1)".len())),
            other => other.text(size),
        }
    }
}

/// Marsaglia's xorshift from a fixed seed.
struct Random(u64);

impl Random {
    fn new() -> Self {
        Random(0x9E37_79B9_7F4A_7C15)
    }

    fn below(&mut self, end: u64) -> u64 {
        self.0 ^= self.0 << 13;
        self.0 ^= self.0 >> 7;
        self.0 ^= self.0 << 17;
        self.0 % end
    }
}

/// As many parts between `open` and `close` as `size` bytes have room for, with commas.
fn filled(open: &str, close: &str, size: usize, mut part: impl FnMut() -> String) -> String {
    let mut text = String::from(open);
    let mut comma = "";
    loop {
        let next = part();
        if text.len() + comma.len() + next.len() + close.len() > size {
            break;
        }
        text.push_str(comma);
        text.push_str(&next);
        comma = ",";
    }
    text.push_str(close);
    text
}

/// The ring is closed: GEOS refuses an open one.
fn polygon(size: usize) -> String {
    let mut random = Random::new();
    let first = vertex(&mut random);
    let open = format!("POLYGON(({first},");
    let close = format!(",{first}))");
    filled(&open, &close, size, || vertex(&mut random))
}

fn vertex(random: &mut Random) -> String {
    format!(
        "{}.{:012} -{}.{:013}",
        100 + random.below(80),
        random.below(1_000_000_000_000),
        10 + random.below(80),
        random.below(10_000_000_000_000)
    )
}

fn points(size: usize) -> String {
    let mut random = Random::new();
    filled("MULTIPOINT(", ")", size, || {
        let [x, y] = [random.below(100_000), random.below(100_000)];
        let [x_end, y_end] = [x % 100, y % 100];
        format!("({}.{x_end:02} {}.{y_end:02})", x / 100, y / 100)
    })
}

fn short(size: usize) -> String {
    let mut random = Random::new();
    filled("LINESTRING(", ")", size, || {
        format!("{} {}", random.below(10), random.below(10))
    })
}

/// Nothing that GEOS or OGR refuses, as a multipoint with bare points and others.
fn mixed(size: usize) -> String {
    let parts = [
        "POINT Z (1.5 2.25 -3e2)",
        "LINESTRING EMPTY",
        "POLYGON((0 0,0 10,10 10,10 0,0 0),(1 1,1 2,2 2,1 1))",
        "MULTIPOINT M ((1 2 3),(4 5 6))",
        "multipoint(1 2, 4 5)",
        "MULTILINESTRING((1 2,3 4),(5 6,7 8))",
        "MULTIPOLYGON(((0 0,0 1,1 1,0 0)),EMPTY)",
        "GEOMETRYCOLLECTION(POINT(1 2), LINESTRING(3 4, 5 6))",
    ];
    let mut parts = parts.into_iter().cycle();
    filled("GEOMETRYCOLLECTION(", ")", size, || {
        parts.next().expect("a cycle has no end").to_string()
    })
}

fn deep(size: usize) -> String {
    let inner = OPEN_COLLECTIONS - 1;
    let chain = format!(
        "{}POINT(1 2){}",
        "GEOMETRYCOLLECTION(".repeat(inner),
        ")".repeat(inner)
    );
    filled("GEOMETRYCOLLECTION(", ")", size, || chain.clone())
}

fn refused(size: usize) -> String {
    let mut text = polygon(size);
    text.pop();
    text.push('x');
    text
}
