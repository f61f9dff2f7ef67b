//! Ticket 7's kept cells: lists of marks, which samples of a plane lie in a kept cell, and a reading by the Rust's own `deblock_plane`, one marked edge after the other.

use crate::plane::Case;
use crate::random::Random;
use crate::record;
use crate::rust::deblock::{self, Marks};
use crate::{picture, tiles};

/// Which samples of a plane lie in a kept cell: the four by four of each mark of 1. What stands beyond the cells, in either list, is in none.
pub fn samples(marks: &[u8], cells: (u64, u64), stride: u64, length: usize) -> Vec<bool> {
    let (columns, rows) = (cells.0 as usize, cells.1 as usize);
    let mut kept = vec![false; length];
    for cell in (0..columns * rows).filter(|&cell| marks.get(cell) == Some(&1)) {
        let corner = cell / columns * 4 * stride as usize + cell % columns * 4;
        for line in 0..4 {
            kept[corner + line * stride as usize..][..4].fill(true);
        }
    }
    kept
}

/// Those of a plane's case.
pub fn of(c: &Case) -> Vec<bool> {
    samples(&c.keep, c.cells, c.stride, c.plane.len())
}

/// The case with no kept cell.
pub fn open(c: &Case) -> Case {
    Case { keep: vec![0; c.keep.len()], ..c.clone() }
}

/// Whether a list keeps one of so many cells.
pub fn any(marks: &[u8], cells: u64) -> bool {
    marks.iter().take(cells as usize).any(|&mark| mark != 0)
}

/// Of a case with a kept cell: whether its plane would end otherwise without.
pub fn matter(c: &Case, plane: &[u16]) -> Option<bool> {
    any(&c.keep, c.cells.0 * c.cells.1).then(|| tiles::read(&open(c)) != plane)
}

/// The plane by `deblock_plane` alone, which shortens no vertical edge: asked for one marked edge after the other in document 01's order, each time on the plane so far, and of what it answers the samples outside kept cells are taken over.
pub fn by_edges(c: &Case) -> Vec<u16> {
    let (settings, kept) = (c.settings(), of(c));
    let mut plane = c.plane.clone();
    for (direction, row, column) in record::order(c) {
        let here = (row * c.cells.0 + column) as usize;
        let mut marks = Marks { vertical: vec![0; c.marks.vertical.len()], horizontal: vec![0; c.marks.horizontal.len()], ..c.marks.clone() };
        let (list, lent) = if direction == 0 { (&mut marks.vertical, &c.marks.vertical) } else { (&mut marks.horizontal, &c.marks.horizontal) };
        list[here] = lent[here];
        if lent[here] == 1 {
            let new = deblock::plane(&settings, &marks, &c.qindex, &plane);
            (0..plane.len()).filter(|&k| !kept[k]).for_each(|k| plane[k] = new[k]);
        }
    }
    plane
}

/// Of a plane of few cells with a kept one: whether the reading without tile starts is that one.
pub fn holds(c: &Case) -> Option<bool> {
    let cells = c.cells.0 * c.cells.1;
    let bare = tiles::bare(c);
    (cells <= 40 && any(&c.keep, cells)).then(|| tiles::read(&bare) == by_edges(&bare))
}

/// Marks: none of a cell kept two times of three, and more than is needed now and then, with anything in what is not used.
pub fn marks(random: &Random, cells: (u64, u64)) -> Vec<u8> {
    let list = if random.below(3) < 2 { vec![0; (cells.0 * cells.1) as usize] } else { some(random, cells) };
    lengthened(random, list)
}

/// Marks of which at least one is 1: one cell, two beside each other, a rectangle as a tag is, one in ten, every second one, or all.
pub fn some(random: &Random, cells: (u64, u64)) -> Vec<u8> {
    let n = (cells.0 * cells.1) as usize;
    let (first, often) = (random.below(n as u64) as usize, random.one_of(&[2, 10, 10]));
    let mut list = vec![0; n];
    match random.below(8) {
        0 | 1 => (),
        2 => list[random.one_of(&[(first + 1) % n, (first + cells.0 as usize) % n])] = 1,
        3 | 4 => {
            let size = (random.size(1, 6) as u64, random.size(1, 4) as u64);
            let (row, column) = (first as u64 / cells.0, first as u64 % cells.0);
            (row..(row + size.1).min(cells.1)).for_each(|r| (column..(column + size.0).min(cells.0)).for_each(|k| list[(r * cells.0 + k) as usize] = 1));
        }
        5 | 6 => list.iter_mut().for_each(|mark| *mark = random.once_in(often) as u8),
        _ => list.fill(1),
    }
    list[first] = 1;
    list
}

/// One kept cell by a marked edge: up to three cells from it across, one along it. Any cell where no edge is marked.
pub fn near(random: &Random, c: &Case) -> Vec<u8> {
    let (columns, rows) = (c.cells.0 as i64, c.cells.1 as i64);
    let edges = record::entries(c);
    let any = (random.within(0, rows - 1), random.within(0, columns - 1));
    let (row, column) = edges.get(random.below(edges.len().max(1) as u64) as usize).map_or(any, |e| {
        let (across, along) = (random.within(-3, 2), random.within(-1, 1));
        let (down, right) = if e.direction == 0 { (along, across) } else { (across, along) };
        ((e.y as i64 / 4 + down).clamp(0, rows - 1), (e.x as i64 / 4 + right).clamp(0, columns - 1))
    });
    let mut list = vec![0; (rows * columns) as usize];
    list[(row * columns + column) as usize] = 1;
    list
}

/// A list with some entries more, now and then, that are not looked at.
pub fn lengthened(random: &Random, mut list: Vec<u8>) -> Vec<u8> {
    let spare = picture::spare(random);
    list.extend(random.list(spare, 256).iter().map(|&mark| mark as u8));
    list
}
