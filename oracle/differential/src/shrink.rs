//! From a batch with a fault to the smallest case that still has one.

use crate::cases::{places, Case};
use crate::check::{check, Fault, Tally};
use crate::replay::Replay;
use crate::smaller_forms;
use crate::smaller_stores::{much_smaller, smaller};
use driver::record::{Move, Request, Rows};
use std::io;

/// Candidates are tried together in one run of the replay program, up to so many
/// bytes of records and lines; a text or a store that needs more is left as it is.
const MAX_ROUND_BYTES: usize = 1 << 27;

/// So many much smaller stores are tried in one run.
const MUCH_SMALLER_TRIED: usize = 64;

fn fault(replay: &Replay, cases: &[Case]) -> io::Result<Option<Fault>> {
    check(replay, cases, &mut Tally::new())
}

/// A single case of the batch that has a fault by itself, if there is one.
pub fn single_case(replay: &Replay, cases: &[Case]) -> io::Result<Option<Case>> {
    let mut suspects = cases;
    loop {
        match fault(replay, suspects)? {
            None => return Ok(None),
            Some(Fault::Different(index)) => return Ok(Some(suspects[index].clone())),
            Some(Fault::Broken(_)) if suspects.len() == 1 => return Ok(Some(suspects[0].clone())),
            Some(Fault::Broken(_)) => {
                let (first, second) = suspects.split_at(suspects.len() / 2);
                let is_in_first = fault(replay, first)?.is_some();
                suspects = if is_in_first { first } else { second };
            }
        }
    }
}

/// A case with a fault, of which no smaller one was found.
pub fn smallest(replay: &Replay, case: Case) -> io::Result<Case> {
    let mut smallest = case;
    while let Some(case) = single_case(replay, &with_much_smaller_store(&smallest))? {
        smallest = case;
    }
    let mut step = smallest.text.len().div_ceil(2);
    while step > 0 {
        let smaller = match round_bytes(&smallest, step) > MAX_ROUND_BYTES {
            true => None,
            false => single_case(replay, &without_parts(&smallest, step))?,
        };
        match smaller {
            Some(case) => smallest = case,
            None => step /= 2,
        }
    }
    while let Some(case) = single_case(replay, &with_simpler_fields(&smallest))? {
        smallest = case;
    }
    Ok(smallest)
}

fn round_bytes(case: &Case, step: usize) -> usize {
    let parts = case.text.len().div_ceil(step);
    parts * case.size()
}

/// About how many bytes all smaller stores of a case have.
fn store_bytes(case: &Case) -> usize {
    match &case.request {
        // A field has three bytes at least; there are two ways to make it smaller, and two
        // pairs of slices.
        Request::ReadStored { .. } => 4 * case.text.len() / 3 * case.text.len(),
        // Two outputs for each of these, and lines with the bytes in hex and with rows.
        Request::Move(_) => 40 * case.text.len() / 3 * case.text.len(),
        request => places(request) * case.size(),
    }
}

/// The case without each of its parts of `step` bytes. A text that is UTF-8 stays so.
fn without_parts(case: &Case, step: usize) -> Vec<Case> {
    let is_text = |bytes: &[u8]| std::str::from_utf8(bytes).is_ok();
    let was_text = is_text(&case.text);
    let starts = (0..case.text.len()).step_by(step);
    let shorter = starts.map(|start| {
        let end = (start + step).min(case.text.len());
        let text = [&case.text[..start], &case.text[end..]].concat();
        let request = moved_back(&case.request, start, end);
        Case { request, text }
    });
    shorter
        .filter(|case| !was_text || is_text(&case.text))
        .collect()
}

/// The request after the bytes from `start` to `end` were taken out before its place, or
/// before the starts of its spans.
fn moved_back(request: &Request, start: usize, end: usize) -> Request {
    let moved = |place: u32| match place as usize >= end {
        true => place - (end - start) as u32,
        false => place,
    };
    let moved_rows = |rows: &Rows| {
        let mut rows = rows.clone();
        for place in rows.numbers.iter_mut().step_by(2) {
            *place = moved(*place);
        }
        rows
    };
    match request {
        Request::Take { place, count } => Request::Take {
            place: moved(*place),
            count: *count,
        },
        Request::LookAndTake { place, count } => Request::LookAndTake {
            place: moved(*place),
            count: *count,
        },
        Request::Boxes { rows, .. } => request.with_rows(shortened_rows(rows, start, end)),
        other => match other.rows() {
            Some(rows) => other.with_rows(moved_rows(rows)),
            None => other.clone(),
        },
    }
}

/// The rows after the bytes from `start` to `end` were taken out: a number that had some of
/// them is shorter, since of a box it is the digits that matter.
fn shortened_rows(rows: &Rows, start: usize, end: usize) -> Rows {
    // A place behind the bytes moves back by all of them, one among them to their start.
    let moved = |place: u64| place - (place.clamp(start as u64, end as u64) - start as u64);
    let mut rows = rows.clone();
    for span in rows.numbers.chunks_exact_mut(2) {
        let first = u64::from(span[0]);
        let last = first + u64::from(span[1]);
        span[0] = moved(first) as u32;
        span[1] = (moved(last) - moved(first)) as u32;
    }
    rows
}

/// The same text, with simpler fields or a smaller store; or the stored bytes of a smaller
/// store.
fn with_simpler_fields(case: &Case) -> Vec<Case> {
    if store_bytes(case) > MAX_ROUND_BYTES {
        return Vec::new();
    }
    let requests = simpler_requests(case).into_iter();
    let with_text = requests.map(|request| Case {
        request,
        text: case.text.clone(),
    });
    with_text.chain(smaller_forms::simpler(case)).collect()
}

/// Fewer tokens demanded or from the start, a smaller store or a smaller output or table.
fn simpler_requests(case: &Case) -> Vec<Request> {
    match &case.request {
        Request::Take { place, count } => simpler_demands(*place, *count)
            .map(|(place, count)| Request::Take { place, count })
            .collect(),
        Request::LookAndTake { place, count } => simpler_demands(*place, *count)
            .map(|(place, count)| Request::LookAndTake { place, count })
            .collect(),
        Request::Write { output, rows }
        | Request::WriteStored { output, rows, .. }
        | Request::Boxes {
            table: output,
            rows,
        } => simpler_writings(&case.text, *output, rows)
            .map(|(output, rows)| with_output(&case.request, output).with_rows(rows))
            .collect(),
        Request::Check { rows } => {
            let stores = smaller(&case.text, rows).into_iter();
            stores.map(|rows| Request::Check { rows }).collect()
        }
        Request::Move(asked) => smaller_outputs(asked.output)
            .map(|output| with_output(&case.request, output))
            .collect(),
        Request::Read { .. } | Request::ReadStored { .. } | Request::Infer => Vec::new(),
    }
}

/// The request with an output or a table of another length.
fn with_output(request: &Request, length: u32) -> Request {
    let mut request = request.clone();
    match &mut request {
        Request::Write { output, .. }
        | Request::WriteStored { output, .. }
        | Request::Move(Move { output, .. })
        | Request::Boxes { table: output, .. } => *output = length,
        _ => {}
    }
    request
}

/// Boxes of a large store are tried on much smaller ones first: they print a row for every
/// node. And so are stored bytes, of which few parts can be left out.
fn with_much_smaller_store(case: &Case) -> Vec<Case> {
    let Request::Boxes { rows, .. } = &case.request else {
        return smaller_forms::much_simpler(case, MAX_ROUND_BYTES);
    };
    if store_bytes(case) <= MAX_ROUND_BYTES {
        return Vec::new();
    }
    let stores = much_smaller(&case.text, rows).into_iter();
    let cases = stores.take(MUCH_SMALLER_TRIED).map(|rows| Case {
        request: case.request.with_rows(rows),
        text: case.text.clone(),
    });
    cases.collect()
}

fn simpler_demands(place: u32, count: u32) -> impl Iterator<Item = (u32, u32)> {
    let simpler = [
        (0, count),
        (place, count / 2),
        (place, count.saturating_sub(1)),
    ];
    simpler
        .into_iter()
        .filter(move |fields| *fields != (place, count))
}

fn smaller_outputs(output: u32) -> impl Iterator<Item = u32> {
    let smaller = [0, output / 2, output.saturating_sub(1)].into_iter();
    smaller.filter(move |smaller| *smaller < output)
}

fn simpler_writings(text: &[u8], output: u32, rows: &Rows) -> impl Iterator<Item = (u32, Rows)> {
    let outputs = smaller_outputs(output);
    let with_output: Vec<_> = outputs.map(|output| (output, rows.clone())).collect();
    let stores = smaller(text, rows).into_iter();
    let with_store = stores.map(move |rows| (output, rows));
    with_output.into_iter().chain(with_store)
}

#[cfg(test)]
mod tests {
    use super::*;

    #[test]
    fn numbers_are_shortened_with_their_text() {
        // "12345 678": 2345 and 678, then without bytes 1 to 3, 3 to 7, 0 to 1 and 8 to 9
        let rows = Rows {
            nodes: vec![],
            numbers: vec![1, 4, 6, 3, u32::MAX, u32::MAX],
        };
        let shortened = |start, end| {
            let numbers = shortened_rows(&rows, start, end).numbers;
            numbers[..4].to_vec()
        };
        assert_eq!(shortened(1, 3), [1, 2, 4, 3]);
        assert_eq!(shortened(3, 7), [1, 2, 3, 2]);
        assert_eq!(shortened(0, 1), [0, 4, 5, 3]);
        assert_eq!(shortened(8, 9), [1, 4, 6, 2]);
    }
}
