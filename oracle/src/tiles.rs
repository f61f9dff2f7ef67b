//! Ticket 5's tile columns: a plane by a plain reading of document 01 as amended, on the Rust's own ladder, thresholds and segments, and held to the Rust itself where that has an answer.

use crate::keep;
use crate::plane::Case;
use crate::record::{self, Side};
use crate::rust::deblock::{self, Joint, Marks, Run, Settings};

/// The plane after every edge in document 01's order; samples in kept cells are not stored (ticket 7).
pub fn read(c: &Case) -> Vec<u16> {
    let settings = c.settings();
    let mut run = Run::new(&settings, &c.plane, keep::of(c));
    record::order(c).into_iter().filter_map(|side| joint(c, side)).for_each(|j| run.edge(&j));
    run.end()
}

/// The edge of a side of a cell, where one is marked; column 0 and row 0 have none.
fn joint(c: &Case, (direction, row, column): Side) -> Option<Joint> {
    let (cols, stride) = (c.cells.0 as usize, c.stride as usize);
    let here = row as usize * cols + column as usize;
    let (marks, sizes, along, limit, back) = match direction {
        0 => (&c.marks.vertical, &c.marks.width, column, c.size.0, 1),
        _ => (&c.marks.horizontal, &c.marks.height, row, c.size.1, cols),
    };
    if along == 0 || marks[here] == 0 {
        return None;
    }
    let smaller = sizes[here].min(sizes[here - back]);
    let (border, most) = if c.chroma { (8, 1) } else { (16, 2) };
    Some(Joint {
        base: 4 * row as usize * stride + 4 * column as usize,
        perp: if direction == 0 { 1 } else { stride },
        line: if direction == 0 { stride } else { 1 },
        index: if 4 * along + border > limit { smaller.min(most) } else { smaller },
        shortened: if direction == 0 { c.starts.contains(&(column as u16)) } else { row % c.superblock.1 == 0 },
        qindex: (c.qindex[here], c.qindex[here - back]),
    })
}

/// The case with no tile start.
pub fn bare(c: &Case) -> Case {
    Case { starts: Vec::new(), ..c.clone() }
}

/// The case with one superblock across: document 01's order is then ticket 6's plain one, all vertical edges, rows in order, and then all horizontal ones, columns in order.
pub fn plain(c: &Case) -> Case {
    Case { superblock: (c.cells.0, c.superblock.1), ..c.clone() }
}

/// Of a case with tile starts: whether its plane would end otherwise without them.
pub fn matter(c: &Case, plane: &[u16]) -> Option<bool> {
    c.starts.first().map(|_| read(&bare(c)) != plane)
}

/// k, where the starts are every k-th column.
fn every(starts: &[u16], cols: u64) -> Option<u64> {
    let k = *starts.first()? as u64;
    let due = (1..cols).filter(|column| column % k == 0);
    due.eq(starts.iter().map(|&s| s as u64)).then_some(k)
}

/// The Rust's answer where every k-th column starts a tile and no horizontal edge is marked: on the turned plane the vertical edges
/// are horizontal ones, and a superblock of k rows has those shortened. The samples are turned back.
pub fn turned(c: &Case, k: u64) -> Vec<u16> {
    let (cols, rows) = (c.cells.0 as usize, c.cells.1 as usize);
    let settings = Settings {
        cells: (rows, cols),
        stride: 4 * rows,
        size: (4 * rows, c.size.0 as usize),
        superblock: (16, k as usize),
        ..c.settings()
    };
    let none = vec![0; cols * rows];
    let marks = Marks { vertical: none.clone(), horizontal: turn(&c.marks.vertical, cols, cols, rows), width: none, height: turn(&c.marks.width, cols, cols, rows) };
    let plane = turn(&c.plane, c.stride as usize, 4 * cols, 4 * rows);
    let new = deblock::plane(&settings, &marks, &turn(&c.qindex, cols, cols, rows), &plane);
    let mut back = c.plane.clone();
    for (i, &sample) in new.iter().enumerate() {
        back[i % (4 * rows) * c.stride as usize + i / (4 * rows)] = sample;
    }
    back
}

/// A list in rows of a stride, its columns as rows.
fn turn<T: Copy>(list: &[T], stride: usize, columns: usize, rows: usize) -> Vec<T> {
    (0..columns * rows).map(|i| list[i % rows * stride + i / rows]).collect()
}

/// Whether the reading with no tile start and no kept cell is the Rust's.
pub fn holds_bare(c: &Case) -> bool {
    read(&bare(&keep::open(c))) == deblock::plane(&c.settings(), &c.marks, &c.qindex, &c.plane)
}

/// Where every k-th column starts a tile: whether the reading with no kept cell is the Rust's on the turned plane. Turned, the two directions change their order,
/// so that only the vertical edges are run.
pub fn holds_turned(c: &Case) -> Option<bool> {
    let k = every(&c.starts, c.cells.0)?;
    let mut vertical = keep::open(c);
    vertical.marks.horizontal.fill(0);
    Some(read(&vertical) == turned(&vertical, k))
}
