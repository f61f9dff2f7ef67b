//! Ticket 1's record of a plane's edges: kind 3, by a plain reading of the ticket; the plane by the published Rust.

use crate::made::Made;
use crate::plane;
use crate::random::Random;
use crate::refusals::{self, Refusal, PAIRS};
use crate::rust::deblock;

/// An entry's six numbers.
#[derive(Clone, Copy)]
pub struct Entry {
    pub x: u64,
    pub y: u64,
    pub direction: u64,
    pub pair: u64,
    pub q: u64,
    pub side: u64,
}

impl Entry {
    fn bytes(&self) -> [u8; 10] {
        let two = |n: u64| [(n % 256) as u8, (n / 256) as u8];
        let (x, y, q, side) = (two(self.x), two(self.y), two(self.q), two(self.side));
        [x[0], x[1], y[0], y[1], self.direction as u8, self.pair as u8, q[0], q[1], side[0], side[1]]
    }
}

/// The header and the entries.
pub fn record(entries: &[Entry]) -> Vec<u8> {
    let mut bytes = b"EDG\x01\x00".to_vec();
    entries.iter().for_each(|e| bytes.extend(e.bytes()));
    bytes
}

/// A side of a cell: the direction of its edge, 0 being vertical, the row and the column.
pub type Side = (u64, u64, u64);

/// The sides of a plane's cells in document 01's order: a superblock column's vertical ones, rows outer, then the previous column's
/// horizontal ones, columns outer; at the end the last column's.
pub fn order(c: &plane::Case) -> Vec<Side> {
    let (cols, rows) = c.cells;
    let blocks: Vec<_> = (0..cols).step_by(c.superblock.0 as usize).map(|start| start..(start + c.superblock.0).min(cols)).collect();
    let mut found = Vec::new();
    let mut visit = |direction: u64, row: u64, column: u64| found.push((direction, row, column));
    for (k, block) in blocks.iter().enumerate() {
        (0..rows).for_each(|r| block.clone().for_each(|column| visit(0, r, column)));
        if k > 0 {
            blocks[k - 1].clone().for_each(|column| (0..rows).for_each(|r| visit(1, r, column)));
        }
    }
    blocks[blocks.len() - 1].clone().for_each(|column| (0..rows).for_each(|r| visit(1, r, column)));
    found
}

/// The edges of a good plane in that order.
pub fn entries(c: &plane::Case) -> Vec<Entry> {
    order(c).into_iter().filter_map(|side| entry(c, side)).collect()
}

/// The edge of a cell, if there is one, with the Rust's thresholds.
fn entry(c: &plane::Case, (direction, row, column): Side) -> Option<Entry> {
    let e = c.layout().edge(direction, row, column)?;
    let here = (row * c.cells.0 + column) as usize;
    let before = if direction == 0 { here - 1 } else { here - c.cells.0 as usize };
    let (q, side) = deblock::thresholds(c.qindex[here] as i64, c.qindex[before] as i64, c.delta_q, c.delta_side, c.depth);
    let pair = PAIRS.iter().position(|&p| p == e.lengths).expect("every rung of the ladder is a pair") as u64;
    Some(Entry { x: e.x, y: e.y, direction, pair, q: q as u64, side: side as u64 })
}

/// A recorded plane, now and then with no marked edge: the buffer one byte short, exact, or longer with anything in it.
pub fn make(random: &Random, refused: bool, _: Option<&[u32]>) -> Made {
    let mut c = plane::case(random, refused && !random.once_in(3));
    if random.once_in(20) {
        c.marks.vertical.fill(0);
        c.marks.horizontal.fill(0);
    }
    let refusal = refusals::of_plane(&c);
    let written = if refusal.is_none() { record(&entries(&c)) } else { Vec::new() };
    let room = match random.below(4) {
        _ if refusal.is_some() => random.size(0, 30),
        0 if refused => written.len() - 1 - random.below(written.len() as u64) as usize,
        _ if refused => written.len() - 1,
        0 | 1 => written.len(),
        _ => written.len() + random.size(1, 40),
    };
    let buffer: Vec<u8> = random.list(room, 256).iter().map(|&b| b as u8).collect();
    recorded(c, refusal, written, buffer)
}

fn recorded(c: plane::Case, refusal: Option<Refusal>, written: Vec<u8>, buffer: Vec<u8>) -> Made {
    let refusal = refusal.or_else(|| (buffer.len() < written.len()).then_some(Refusal { no: 10, place: 0 }));
    let mut line = plane::asked(&c, 3);
    line.list(&buffer);
    if let Some(r) = refusal {
        line.unsigned(&[r.no, r.place, 0, 0]);
        return plane::refused(line, refusal, c);
    }
    let (plane, counts) = plane::filtered(&c);
    let mut after = buffer;
    after[..written.len()].copy_from_slice(&written);
    line.unsigned(&[0, written.len() as u64, counts.stored, counts.changed]).entries(&plane).entries(&after);
    plane::accepted(line, plane, counts, c)
}
