//! Ticket 2's run of a record: kind 4, by a plain reading of the ticket; the segments by the published Rust, one after the other.

use crate::line::Line;
use crate::plane;
use crate::random::Random;
use crate::record::{record, Entry};
use crate::refusals::{self, has_room, Edge, Refusal, PAIRS};
use crate::rust::deblock::{Counts, Span, Watched};
use crate::thresholds::DEPTHS;
use crate::{damage, keep, made::Made, picture};

impl Entry {
    fn read(bytes: &[u8]) -> Entry {
        let two = |k: usize| bytes[k] as u64 + 256 * bytes[k + 1] as u64;
        Entry { x: two(0), y: two(2), direction: bytes[4] as u64, pair: bytes[5] as u64, q: two(6), side: two(8) }
    }

    /// Within a segment's ranges.
    fn good(&self) -> bool {
        self.direction <= 1 && self.pair <= 7 && self.q <= 2048 && self.side <= 839
    }

    fn edge(&self) -> Edge {
        Edge { x: self.x, y: self.y, direction: self.direction, lengths: PAIRS[self.pair as usize] }
    }

    fn span(&self, stride: usize) -> Span {
        let lengths = PAIRS[self.pair as usize];
        let along = self.direction == 0;
        Span {
            base: self.y as usize * stride + self.x as usize,
            perp: if along { 1 } else { stride },
            line: if along { stride } else { 1 },
            lengths: (lengths.0 as i64, lengths.1 as i64),
        }
    }
}

/// A record to be run again.
struct Case {
    cells: (u64, u64),
    stride: u64,
    depth: u64,
    bytes: Vec<u8>,
    keep: Vec<u8>,
    plane: Vec<u16>,
}

/// Any edge: on a cell or off it, at a border or past it.
fn any(random: &Random, cells: (u64, u64)) -> Entry {
    let at = |most: u64| if random.once_in(3) { 4 * random.below(most) } else { random.below(4 * most + 1) };
    Entry {
        x: at(cells.0),
        y: at(cells.1),
        direction: random.below(2),
        pair: random.below(8),
        q: random.one_of(&[0, 1, 3, 8, 20, 2048]),
        side: random.one_of(&[0, 1, 5, 40, 200, 839]),
    }
}

/// Some edges with room, now and then one twice; of a refused case also such as have none.
fn edges(random: &Random, cells: (u64, u64), roomless: bool) -> Vec<Entry> {
    let mut list: Vec<Entry> = (0..random.size(0, 40))
        .map(|_| any(random, cells))
        .filter(|e| (roomless && random.once_in(4)) || has_room(&e.edge(), 4 * cells.0, 4 * cells.1))
        .collect();
    if !list.is_empty() && random.once_in(2) {
        let again = list[random.below(list.len() as u64) as usize];
        list.insert(random.below(list.len() as u64 + 1) as usize, again);
    }
    list
}

/// One fault in the record: a byte of the header, a field of an entry, or its end.
fn spoil(random: &Random, bytes: &mut Vec<u8>) {
    let count = bytes.len().saturating_sub(5) / 10;
    match random.below(5) {
        0 => bytes.truncate(random.size(0, 25)),
        1 => bytes.truncate(bytes.len() - random.size(1, 9).min(bytes.len())),
        2 if !bytes.is_empty() => {
            let at = random.below(5.min(bytes.len() as u64)) as usize;
            bytes[at] = bytes[at].wrapping_add(random.one_of(&[1, 255, 2]));
        }
        3 => bytes.extend((0..random.size(1, 9)).map(|_| 7)),
        _ if count > 0 => {
            let at = 5 + 10 * random.below(count as u64) as usize;
            let (field, value) = random.one_of(&[(4, 2), (4, 255), (5, 8), (5, 255), (7, 9), (7, 255), (9, 4), (9, 255)]);
            bytes[at + field] = value;
        }
        _ => bytes.clear(),
    }
}

fn damaged(random: &Random, c: &mut Case) {
    for _ in 0..random.one_of(&[1, 1, 2]) {
        match random.below(14) {
            0 => c.depth = damage::depth(random),
            1 => c.cells.0 = damage::count(random, 1024),
            2 => c.cells.1 = damage::count(random, 1024),
            3 => c.stride = damage::stride(random, 4 * c.cells.0),
            4 => damage::shorten(random, &mut c.plane, c.stride.saturating_mul(4).saturating_mul(c.cells.1)),
            5 | 6 => {
                let limit = c.plane.len();
                damage::samples(random, &mut c.plane, limit, refusals::top(c.depth.min(12)));
            }
            7 | 8 => {
                let cells = (c.cells.0.min(1024), c.cells.1.min(1024));
                plane::spoil_keep(random, &mut c.keep, cells);
            }
            _ => spoil(random, &mut c.bytes),
        }
    }
}

/// The refusals of a record that is run, in ticket 2's order.
fn refusal_of(c: &Case) -> Option<Refusal> {
    let (no, at) = (|no: u64, bad: bool| bad.then_some(Refusal { no, place: 0 }), |no: u64, place: Option<u64>| place.map(|place| Refusal { no, place }));
    let list = || -> Vec<Entry> { c.bytes[5..].chunks_exact(10).map(Entry::read).collect() };
    let first = |bad: &dyn Fn(&Entry) -> bool| list().iter().position(bad).map(|k| k as u64);
    refusals::replay_plane(c.cells, c.stride, c.depth, &c.keep, &c.plane)
        .or_else(|| no(11, c.bytes.len() < 5 || c.bytes[..5] != *b"EDG\x01\x00"))
        .or_else(|| at(12, ((c.bytes.len() - 5) % 10 != 0).then(|| (c.bytes.len() as u64 - 5) / 10)))
        .or_else(|| at(13, first(&|e| !e.good())))
        .or_else(|| refusals::bad_keep(&c.keep, c.cells))
        .or_else(|| at(7, first(&|e| !has_room(&e.edge(), 4 * c.cells.0, 4 * c.cells.1))))
        .or_else(|| refusals::plane_sample(&c.plane, c.cells, c.stride, c.depth))
}

pub fn make(random: &Random, refused: bool, _: Option<&[u32]>) -> Made {
    let cells = plane::cells(random);
    let stride = 4 * cells.0 + random.one_of(&[0, 0, 1, 4, 7]);
    let depth = random.one_of(&DEPTHS);
    let spare = picture::spare(random);
    let mut c = Case {
        cells,
        stride,
        depth,
        bytes: record(&edges(random, cells, refused && random.once_in(3))),
        keep: keep::marks(random, cells),
        plane: picture::samples(random, stride as usize, 4 * cells.1 as usize, depth, spare),
    };
    match random.below(12) {
        0 => c.plane = picture::still(random, stride as usize, c.plane.len(), depth, 0),
        1 => c.plane = picture::saturated(random, stride as usize, c.plane.len(), depth),
        _ => (),
    }
    if refused && !random.once_in(4) {
        damaged(random, &mut c);
    }
    replayed(c)
}

/// The segments of the published Rust, one after the other: the plane that they leave, and what they stored. Stores to kept samples are none.
pub fn run(edges: impl IntoIterator<Item = Entry>, stride: u64, depth: u64, plane: &[u16], kept: Vec<bool>) -> (Vec<u16>, Counts) {
    let mut watched = Watched::keeping(plane, kept);
    edges.into_iter().for_each(|e| watched.segment(&e.span(stride as usize), e.q as i64, e.side as i64, depth));
    watched.end()
}

fn replayed(c: Case) -> Made {
    let refusal = refusal_of(&c);
    let mut line = Line::new(4);
    line.unsigned(&[c.cells.0, c.cells.1, c.stride, c.depth]).list(&c.bytes).list(&c.keep).list(&c.plane);
    if let Some(r) = refusal {
        line.unsigned(&[r.no, r.place, 0, 0]);
        let keep = keep::any(&c.keep, c.cells.0.saturating_mul(c.cells.1)).then_some(false);
        return Made { line, refusal, keep, ..Made::default() };
    }
    let run = |kept: Vec<bool>| run(c.bytes[5..].chunks_exact(10).map(Entry::read), c.stride, c.depth, &c.plane, kept);
    let (plane, counts) = run(keep::samples(&c.keep, c.cells, c.stride, c.plane.len()));
    let keep = keep::any(&c.keep, c.cells.0 * c.cells.1).then(|| run(vec![false; c.plane.len()]).0 != plane);
    line.unsigned(&[0, 0, counts.stored, counts.changed]).entries(&plane);
    Made { line, refusal, changed: plane != c.plane, counts: Some(counts), keep, ..Made::default() }
}
