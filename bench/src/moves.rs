//! The moves of stored bytes from one version to the other, beside the same by two entries: the
//! reader of the one version and the writer of the other, which checks the tree once more.

use crate::jobs::Work;
use crate::library::{Version, VERSIONS};
use crate::measure::{nanoseconds, Counter, ROUNDS};
use crate::samples::Sample;
use crate::tables::{amount, head, row, title};

const HEADS: [&str; 8] = [
    "text",
    "from",
    "bytes read",
    "bytes written",
    "reading alone",
    "move",
    "reading and writing by two entries",
    "move ÷ two entries",
];

/// A text and the version that its tree is moved from.
struct Line<'a> {
    sample: &'a Sample,
    from: Version,
}

/// Instructions and times.
pub fn print(samples: &[Sample], counter: &mut Counter) -> Result<(), String> {
    title("Moves: instructions per byte read");
    head(&HEADS);
    for line in lines(samples) {
        let works = line.works().into_iter();
        let counts = works.map(|work| counter.instructions(work, line.sample));
        line.print(&counts.collect::<Result<Vec<f64>, String>>()?);
    }
    print_times(samples);
    Ok(())
}

pub fn print_times(samples: &[Sample]) {
    title(&format!(
        "Moves: nanoseconds per byte read, the least of {ROUNDS} runs"
    ));
    head(&HEADS);
    for line in lines(samples) {
        line.print(&nanoseconds(&line.works(), line.sample));
    }
}

/// Both moves of each text whose tree is there and fits both versions.
fn lines(samples: &[Sample]) -> impl Iterator<Item = Line<'_>> {
    let of_text = |sample| VERSIONS.map(|from| Line { sample, from });
    let lines = samples.iter().flat_map(of_text);
    lines.filter(|line| Work::Move(line.from).applies_to(line.sample))
}

impl Line<'_> {
    fn works(&self) -> [Work; 3] {
        [
            Work::Kept(self.from),
            Work::Move(self.from),
            Work::ByTwo(self.from),
        ]
    }

    /// A row for the amounts of `works`. That of the reading alone is per byte of the text.
    fn print(&self, amounts: &[f64]) {
        let [reading, moving, by_two] = [amounts[0], amounts[1], amounts[2]];
        let [read, written] = [self.from, self.from.other()].map(|version| self.stored(version));
        let reading = reading * self.sample.text.len() as f64 / read as f64;
        row(&[
            self.sample.kind.name().to_string(),
            self.from.number().to_string(),
            read.to_string(),
            written.to_string(),
            amount(reading),
            amount(moving),
            amount(by_two),
            amount(moving / by_two),
        ]);
    }

    /// How many bytes the tree has in a version.
    fn stored(&self, version: Version) -> usize {
        self.sample.stored(version).map_or(0, <[u8]>::len)
    }
}
