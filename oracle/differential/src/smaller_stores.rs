//! Smaller stores than a given one, for the search of the smallest that shows a fault.

use crate::stores::{self, Node, WIDTHS};
use driver::record::Rows;
use std::ops::Range;

/// Without one row or place and, of a well-formed store, without one node or coordinate.
pub fn smaller(text: &[u8], rows: &Rows) -> Vec<Rows> {
    let mut found = Vec::new();
    if let Ok(root) = stores::tree(text, rows) {
        Walk {
            rows,
            number: 0,
            found: &mut found,
        }
        .node(&root, None);
    }
    for row in (0..rows.nodes.len()).step_by(3) {
        found.push(without(rows, row / 3..row / 3 + 1, 0..0));
    }
    for row in (0..rows.numbers.len()).step_by(2) {
        found.push(without(rows, 0..0, row / 2..row / 2 + 1));
    }
    found
}

/// Much smaller ones than a well-formed store: the first half of the root's parts, the second
/// half, and each of its children by itself.
pub fn much_smaller(text: &[u8], rows: &Rows) -> Vec<Rows> {
    let Ok(root) = stores::tree(text, rows) else {
        return Vec::new();
    };
    // Where each part of the root begins, and where the last one ends: node rows, number rows.
    let mut starts = vec![(1, 0)];
    let width = WIDTHS[root.dimension as usize];
    let coordinates = root.coordinates().iter().map(|_| (0, width));
    let children = root.children().iter().map(counts);
    for (nodes, numbers) in coordinates.chain(children) {
        let (node, number) = starts[starts.len() - 1];
        starts.push((node + nodes, number + numbers));
    }
    let between = |first: usize, last: usize| Rows {
        nodes: rows.nodes[3 * starts[first].0..3 * starts[last].0].to_vec(),
        numbers: rows.numbers[2 * starts[first].1..2 * starts[last].1].to_vec(),
    };
    let parts = starts.len() - 1;
    let half = |first: usize, last: usize| {
        let mut half = between(first, last);
        let root = [root.kind, root.dimension, (last - first) as u32];
        half.nodes.splice(0..0, root);
        half
    };
    let alone = (0..root.children().len()).map(|child| between(child, child + 1));
    let halves = match parts {
        0 | 1 => Vec::new(),
        _ => vec![half(0, parts / 2), half(parts / 2, parts)],
    };
    halves.into_iter().chain(alone).collect()
}

/// How many node rows and number rows a node has with all below it.
fn counts(node: &Node) -> (usize, usize) {
    let own = WIDTHS[node.dimension as usize] * node.coordinates().len();
    let below = node.children().iter().map(counts);
    below.fold((1, own), |(nodes, numbers), (more_nodes, more_numbers)| {
        (nodes + more_nodes, numbers + more_numbers)
    })
}

/// Without these node rows and number rows.
fn without(rows: &Rows, nodes: Range<usize>, numbers: Range<usize>) -> Rows {
    let drain = |slice: &mut Vec<u32>, rows: Range<usize>, width: usize| {
        let end = (width * rows.end).min(slice.len());
        slice.drain(width * rows.start..end);
    };
    let mut smaller = rows.clone();
    drain(&mut smaller.nodes, nodes, 3);
    drain(&mut smaller.numbers, numbers, 2);
    smaller
}

struct Walk<'rows> {
    rows: &'rows Rows,
    number: usize,
    found: &'rows mut Vec<Rows>,
}

impl Walk<'_> {
    /// Answers how many rows the node has with all below it.
    fn node(&mut self, node: &Node, parent: Option<&Node>) -> usize {
        let first = self.number;
        let width = WIDTHS[node.dimension as usize];
        if !node.coordinates().is_empty() {
            let mut smaller = without(self.rows, 0..0, first..first + width);
            smaller.nodes[3 * node.row + 2] -= 1;
            self.found.push(smaller);
        }
        self.number += width * node.coordinates().len();
        let children = node.children().iter();
        let below: usize = children.map(|child| self.node(child, Some(node))).sum();
        if let Some(parent) = parent {
            let rows = node.row..node.row + 1 + below;
            let mut smaller = without(self.rows, rows, first..self.number);
            smaller.nodes[3 * parent.row + 2] -= 1;
            self.found.push(smaller);
        }
        1 + below
    }
}

#[cfg(test)]
mod tests {
    use super::*;

    #[test]
    fn parts_of_the_root_by_themselves() {
        let text = b"1 2 3 4";
        let collection = Rows {
            nodes: vec![7, 0, 3, 4, 0, 1, 1, 0, 1, 1, 1, 0, 2, 0, 1],
            numbers: vec![0, 1, 2, 1, 4, 1, 6, 1],
        };
        let rows = |nodes: &[u32], numbers: &[u32]| Rows {
            nodes: nodes.to_vec(),
            numbers: numbers.to_vec(),
        };
        let expected = [
            rows(&[7, 0, 1, 4, 0, 1, 1, 0, 1], &[0, 1, 2, 1]),
            rows(&[7, 0, 2, 1, 1, 0, 2, 0, 1], &[4, 1, 6, 1]),
            rows(&[4, 0, 1, 1, 0, 1], &[0, 1, 2, 1]),
            rows(&[1, 1, 0], &[]),
            rows(&[2, 0, 1], &[4, 1, 6, 1]),
        ];
        assert_eq!(much_smaller(text, &collection), expected);
        let line = rows(&[2, 0, 2], &[0, 1, 2, 1, 4, 1, 6, 1]);
        let expected = [
            rows(&[2, 0, 1], &[0, 1, 2, 1]),
            rows(&[2, 0, 1], &[4, 1, 6, 1]),
        ];
        assert_eq!(much_smaller(text, &line), expected);
        assert_eq!(much_smaller(text, &expected[0]), []);
    }

    #[test]
    fn a_node_goes_with_its_numbers() {
        let text = b"1 2 3 4";
        let rows = Rows {
            nodes: vec![7, 0, 2, 1, 0, 1, 2, 0, 1],
            numbers: vec![0, 1, 2, 1, 4, 1, 6, 1],
        };
        let smaller = smaller(text, &rows);
        let expected = Rows {
            nodes: vec![7, 0, 1, 2, 0, 1],
            numbers: vec![4, 1, 6, 1],
        };
        assert!(smaller.contains(&expected));
        let well_formed = smaller
            .iter()
            .filter(|rows| stores::tree(text, rows).is_ok());
        assert_eq!(well_formed.count(), 4);
    }
}
