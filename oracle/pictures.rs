//! Pictures and settings files as `bin/filter` takes them, made at random and filtered by the published Rust.
//!
//! pictures settings SEED WIDTH HEIGHT     writes random settings to standard output
//! pictures picture SEED                   writes a random picture to standard output
//! pictures filter PICTURE SETTINGS OUT    filters a picture by the Rust
//! pictures record PICTURE SETTINGS FILE   writes the edges of its planes to FILE.y, FILE.u and FILE.v: the Rust's grids and thresholds, and a plain reading of ticket 1
//! pictures damage SEED FILE               writes the file, damaged, to standard output

#![allow(dead_code)]

#[path = "src/ccso.rs"]
mod ccso;
#[path = "src/damage.rs"]
mod damage;
#[path = "src/frame.rs"]
mod frame;
#[path = "src/grid.rs"]
mod grid;
#[path = "src/keep.rs"]
mod keep;
#[path = "src/line.rs"]
mod line;
#[path = "src/made.rs"]
mod made;
#[path = "src/picture.rs"]
mod picture;
#[path = "src/plane.rs"]
mod plane;
#[path = "src/random.rs"]
mod random;
#[path = "src/record.rs"]
mod record;
#[path = "src/refusals.rs"]
mod refusals;
#[path = "src/replay.rs"]
mod replay;
#[path = "src/rows.rs"]
mod rows;
#[path = "src/rust.rs"]
mod rust;
#[path = "src/segment.rs"]
mod segment;
#[path = "src/thresholds.rs"]
mod thresholds;
#[path = "src/tiles.rs"]
mod tiles;

// The published files name each other below `crate::av2`.
use rust as av2;

use av2::deblock;
use random::Random;
use std::io::Write;
use std::process::exit;

/// A format's subsampling, whether it has chroma, and its depth.
const FORMATS: [(&str, usize, usize, bool, u64); 15] = [
    ("420", 1, 1, true, 8),
    ("420jpeg", 1, 1, true, 8),
    ("420mpeg2", 1, 1, true, 8),
    ("420paldv", 1, 1, true, 8),
    ("420p10", 1, 1, true, 10),
    ("420p12", 1, 1, true, 12),
    ("422", 1, 0, true, 8),
    ("422p10", 1, 0, true, 10),
    ("422p12", 1, 0, true, 12),
    ("444", 0, 0, true, 8),
    ("444p10", 0, 0, true, 10),
    ("444p12", 0, 0, true, 12),
    ("mono", 0, 0, false, 8),
    ("mono10", 0, 0, false, 10),
    ("mono12", 0, 0, false, 12),
];

struct Picture {
    head: Vec<u8>,
    size: (usize, usize),
    sub: (usize, usize),
    chroma: bool,
    depth: u64,
    planes: [Vec<u16>; 3],
}

fn halved(n: usize, sub: usize) -> usize {
    (n + sub) >> sub
}

fn eights(n: usize) -> usize {
    n.div_ceil(8) * 8
}

impl Picture {
    fn plane_size(&self, plane: usize) -> (usize, usize) {
        let sub = if plane == 0 { (0, 0) } else { self.sub };
        (halved(self.size.0, sub.0), halved(self.size.1, sub.1))
    }

    fn bytes(&self) -> Vec<u8> {
        let mut out = self.head.clone();
        for plane in &self.planes[..if self.chroma { 3 } else { 1 }] {
            for &s in plane {
                out.push(s as u8);
                if self.depth > 8 {
                    out.push((s >> 8) as u8);
                }
            }
        }
        out
    }
}

/// Where the second line ends.
fn after_lines(bytes: &[u8]) -> usize {
    let first = bytes.iter().position(|&b| b == 10).expect("a header line") + 1;
    first + bytes[first..].iter().position(|&b| b == 10).expect("a frame line") + 1
}

fn read_picture(path: &str) -> Picture {
    let bytes = std::fs::read(path).expect("a picture");
    let at = after_lines(&bytes);
    let head = bytes[..at].to_vec();
    let line = String::from_utf8_lossy(&head[..head.iter().position(|&b| b == 10).unwrap()]).to_string();
    let value = |letter: char| line.split(' ').skip(1).find(|w| w.starts_with(letter)).map(|w| w[1..].to_string());
    let name = value('C').unwrap_or("420".to_string());
    let format = FORMATS.iter().find(|f| f.0 == name).expect("a known format");
    let size = (value('W').unwrap().parse().unwrap(), value('H').unwrap().parse().unwrap());
    let mut p = Picture { head, size, sub: (format.1, format.2), chroma: format.3, depth: format.4, planes: Default::default() };
    let mut rest = &bytes[at..];
    for plane in 0..if p.chroma { 3 } else { 1 } {
        let (w, h) = p.plane_size(plane);
        let each = if p.depth > 8 { 2 } else { 1 };
        let (mine, others) = rest.split_at(w * h * each);
        p.planes[plane] = mine.chunks(each).map(|c| c.iter().rev().fold(0, |v, &b| v * 256 + b as u16)).collect();
        rest = others;
    }
    p
}

/// A settings file by its names.
#[derive(Default)]
struct Settings {
    lines: Vec<(String, Vec<i64>)>,
}

impl Settings {
    fn read(path: &str) -> Settings {
        let text = std::fs::read_to_string(path).expect("settings");
        let mut s = Settings::default();
        for line in text.lines() {
            let mut words = line.split('#').next().unwrap().split_whitespace();
            if let Some(name) = words.next() {
                s.lines.push((name.to_string(), words.map(|w| w.parse().expect("a number")).collect()));
            }
        }
        s
    }

    /// The numbers of every line of that name, one after the other.
    fn all(&self, name: &str) -> Vec<i64> {
        self.lines.iter().filter(|l| l.0 == name).flat_map(|l| l.1.clone()).collect()
    }

    fn last(&self, name: &str, default: &[i64]) -> Vec<i64> {
        self.lines.iter().filter(|l| l.0 == name).last().map_or(default.to_vec(), |l| l.1.clone())
    }

    fn leaves(&self, name: &str) -> Vec<deblock::Leaf> {
        self.all(name).chunks(4).map(|l| (l[0] as usize, l[1] as usize, l[2] as usize, l[3] as usize)).collect()
    }
}

/// A plane on whole cells: its last column and row repeated.
fn padded(plane: &[u16], size: (usize, usize)) -> Vec<u16> {
    let (w, h) = size;
    let at = |y: usize, x: usize| plane[y.min(h - 1) * w + x.min(w - 1)];
    (0..eights(h)).flat_map(|y| (0..eights(w)).map(move |x| (y, x))).map(|(y, x)| at(y, x)).collect()
}

fn packed(plane: &[u16], size: (usize, usize)) -> Vec<u16> {
    (0..size.1).flat_map(|y| plane[y * eights(size.0)..][..size.0].to_vec()).collect()
}

/// The Rust's own settings that an eleven-number line stands for.
fn choice(numbers: &[i64]) -> Option<av2::ccso::Choice> {
    for code in 0..4 * 4 * 7 * 2 * 4u32 {
        let c = av2::ccso::Choice {
            scale: (code % 4) as u8,
            quantizer: (code / 4 % 4) as u8,
            support: (code / 16 % 7) as u8,
            classifier: (code / 112 % 2) as u8,
            bands: (code / 224) as u8,
        };
        if line_of(&c) == numbers {
            return Some(c);
        }
    }
    None
}

fn line_of(c: &av2::ccso::Choice) -> Vec<i64> {
    let classes = if c.classifier == 0 { [0, 1, 2] } else { [0, 1, 1] };
    let taps = c.taps();
    let mut line = vec![c.scale(), -c.cut(), c.cut()];
    line.extend(classes);
    line.extend([taps[0].0, taps[0].1, taps[1].0, taps[1].1, c.bands as i64]);
    line
}

/// What the settings give for a picture, with the defaults.
struct Given {
    entries: Vec<u16>,
    leaves: Vec<deblock::Leaf>,
    chroma_leaves: Vec<deblock::Leaf>,
    skips: Vec<deblock::Leaf>,
    cap: (usize, usize),
    chroma_cap: (usize, usize),
    chroma: bool,
    deltas: (i64, i64),
    /// The columns in which a tile starts, of luma and of chroma.
    starts: [Vec<u16>; 2],
    /// Rectangles of luma's cells: row, column, rows, columns.
    kept: Vec<[usize; 4]>,
}

fn given(p: &Picture, s: &Settings) -> Given {
    let (across, down) = (p.size.0.div_ceil(64), p.size.1.div_ceil(64));
    let mut entries: Vec<u16> = s.all("qindex").iter().map(|&q| q as u16).collect();
    while entries.len() < across * down {
        entries.push(*entries.last().unwrap());
    }
    let mut leaves = s.leaves("leaf");
    if leaves.is_empty() {
        leaves = (0..down).flat_map(|r| (0..across).map(move |c| (16 * r, 16 * c, 16, 16))).collect();
    }
    let mut chroma_leaves = s.leaves("leaf_uv");
    if chroma_leaves.is_empty() {
        chroma_leaves = leaves.clone();
    }
    let pair = |name: &str| {
        let cap = s.last(name, &[16, 16]);
        (cap[0] as usize, cap[1] as usize)
    };
    Given {
        entries,
        leaves,
        chroma_leaves,
        skips: s.leaves("skip"),
        cap: pair("cap_y"),
        chroma_cap: pair("cap_uv"),
        chroma: s.last("chroma", &[1])[0] != 0,
        deltas: (s.last("delta_y", &[0])[0], s.last("delta_uv", &[0])[0]),
        starts: ["tiles_y", "tiles_uv"].map(|name| s.last(name, &[]).iter().map(|&column| column as u16).collect()),
        kept: s.all("keep").chunks(4).map(|k| [k[0] as usize, k[1] as usize, k[2] as usize, k[3] as usize]).collect(),
    }
}

fn deblocked(p: &Picture, s: &Settings) -> [Vec<u16>; 3] {
    let g = given(p, s);
    let planes = [0, 1, 2].map(|k| if p.planes[k].is_empty() { Vec::new() } else { padded(&p.planes[k], p.plane_size(k)) });
    let frame = deblock::Frame {
        size: p.size,
        sub: p.sub,
        chroma: (p.chroma, g.chroma),
        depth: p.depth,
        deltas: g.deltas,
        strides: (eights(p.size.0), eights(p.plane_size(1).0)),
        cap: g.cap,
        chroma_cap: g.chroma_cap,
        entries: &g.entries,
        leaves: &g.leaves,
        chroma_leaves: &g.chroma_leaves,
        skips: &g.skips,
    };
    let new = read(p, &g, &planes, deblock::frame(&frame, &planes));
    [0, 1, 2].map(|k| if new[k].is_empty() { Vec::new() } else { packed(&new[k], p.plane_size(k)) })
}

/// The Rust's new planes; those with tile starts or kept cells by the reading of these, which is held to the Rust's without them.
fn read(p: &Picture, g: &Given, planes: &[Vec<u16>; 3], mut new: [Vec<u16>; 3]) -> [Vec<u16>; 3] {
    for k in 0..if p.chroma && g.chroma { 3 } else { 1 } {
        let c = alone(p, g, k > 0, planes[k].clone());
        assert!(tiles::read(&tiles::bare(&keep::open(&c))) == new[k], "the reading of tile starts is not the Rust's");
        new[k] = tiles::read(&c);
    }
    new
}

/// Whether a rectangle has a sample of luma.
fn kept(g: &Given, x: usize, y: usize) -> bool {
    g.kept.iter().any(|k| (4 * k[0]..4 * (k[0] + k[2])).contains(&y) && (4 * k[1]..4 * (k[1] + k[3])).contains(&x))
}

/// The marks of a plane's cells: 1 where one of luma's samples that lie over a cell is in a rectangle.
fn marks(g: &Given, cells: (usize, usize), sub: (usize, usize)) -> Vec<u8> {
    let (w, h) = (4 << sub.0, 4 << sub.1);
    let any = |r: usize, c: usize| (h * r..h * (r + 1)).any(|y| (w * c..w * (c + 1)).any(|x| kept(g, x, y)));
    (0..cells.0 * cells.1).map(|k| any(k / cells.0, k % cells.0) as u8).collect()
}

/// One of a picture's planes by itself.
fn alone(p: &Picture, g: &Given, chroma: bool, plane: Vec<u16>) -> plane::Case {
    let (sub, cap, leaves, delta) =
        if chroma { (p.sub, g.chroma_cap, &g.chroma_leaves, g.deltas.1) } else { ((0, 0), g.cap, &g.leaves, g.deltas.0) };
    let size = p.plane_size(chroma as usize);
    let cells = (eights(size.0) / 4, eights(size.1) / 4);
    plane::Case {
        cells: (cells.0 as u64, cells.1 as u64),
        stride: eights(size.0) as u64,
        size: ((eights(p.size.0) >> sub.0) as u64, (eights(p.size.1) >> sub.1) as u64),
        superblock: (16 >> sub.0, 16 >> sub.1),
        chroma,
        depth: p.depth,
        delta_q: delta,
        delta_side: delta,
        marks: deblock::tx_grid(leaves, &g.skips, cells, sub, cap),
        qindex: deblock::qindex_grid(&g.entries, p.size.0.div_ceil(64), cells, sub),
        starts: g.starts[chroma as usize].clone(),
        keep: marks(g, cells, sub),
        plane,
        steps: Vec::new(),
    }
}

/// The record of luma or of chroma.
fn edges(p: &Picture, g: &Given, chroma: bool) -> Vec<u8> {
    record::record(&record::entries(&alone(p, g, chroma, Vec::new())))
}

fn records(picture: &str, settings: &str, file: &str) {
    let p = read_picture(picture);
    let g = given(&p, &Settings::read(settings));
    let write = |letter: &str, bytes: &[u8]| std::fs::write(format!("{file}.{letter}"), bytes).expect("a record");
    write("y", &edges(&p, &g, false));
    if p.chroma && g.chroma {
        let both = edges(&p, &g, true);
        write("u", &both);
        write("v", &both);
    }
}

fn offset(p: &Picture, s: &Settings, luma: &[u16], plane: usize, target: &[u16]) -> Vec<u16> {
    let letter = ["y", "u", "v"][plane];
    let numbers = s.last(&format!("ccso_{letter}"), &[]);
    if numbers.is_empty() || target.is_empty() {
        return target.to_vec();
    }
    let c = choice(&numbers).expect("CCSO settings that the Rust has");
    let mut flags: Vec<u8> = s.all(&format!("flags_{letter}")).iter().map(|&f| f as u8).collect();
    flags.resize(4096, 1);
    let mut offsets = s.all(&format!("offset_{letter}"));
    offsets.resize(128, 0);
    offsets.truncate(16 << c.bands);
    let over = av2::ccso::Picture { luma, size: p.size, sub: if plane == 0 { (0, 0) } else { p.sub }, depth: p.depth };
    av2::ccso::apply(&over, &c, target, &flags, &offsets)
}

fn filter(picture: &str, settings: &str, out: &str) {
    let mut p = read_picture(picture);
    let s = Settings::read(settings);
    let planes = deblocked(&p, &s);
    let luma = planes[0].clone();
    p.planes = [0, 1, 2].map(|k| offset(&p, &s, &luma, k, &planes[k]));
    std::fs::write(out, p.bytes()).expect("the new picture");
}

/// Splits a block of cells in quarters or halves, or keeps it.
fn split(random: &Random, out: &mut String, name: &str, at: (usize, usize), size: (usize, usize)) {
    let (across, down) = match random.below(6) {
        0 | 1 => (2, 2),
        2 => (2, 1),
        3 => (1, 2),
        _ => (1, 1),
    };
    let (w, h) = size;
    if (across, down) == (1, 1) || w < across || h < down {
        let whole = if random.once_in(12) { 4096 } else { 0 };
        *out += &format!("{name} {} {} {} {}\n", at.0, at.1, w + whole, h);
        return;
    }
    for r in 0..down {
        for c in 0..across {
            split(random, out, name, (at.0 + r * h / down, at.1 + c * w / across), (w / across, h / down));
        }
    }
}

/// Whether a leaf's line begins in the picture; one that does not is refused by the program as a bad file.
fn begins_inside(line: &str, size: (usize, usize)) -> bool {
    let words: Vec<usize> = line.split(' ').skip(1).take(2).map(|w| w.parse().expect("a number")).collect();
    words[0] < 2 * size.1.div_ceil(8) && words[1] < 2 * size.0.div_ceil(8)
}

/// Leaves over the picture's superblocks; those that begin beyond its last row or column are left out.
fn tiling(random: &Random, out: &mut String, name: &str, size: (usize, usize)) {
    let mut lines = String::new();
    for r in 0..size.1.div_ceil(64) {
        for c in 0..size.0.div_ceil(64) {
            split(random, &mut lines, name, (16 * r, 16 * c), (16, 16));
        }
    }
    for line in lines.lines().filter(|l| begins_inside(l, size)) {
        *out += &format!("{line}\n");
    }
}

fn numbers(list: &[i64]) -> String {
    list.iter().map(|n| format!(" {n}")).collect()
}

fn ccso_lines(random: &Random, out: &mut String, letter: &str) {
    let c = av2::ccso::Choice {
        scale: random.below(4) as u8,
        quantizer: random.below(4) as u8,
        support: random.below(7) as u8,
        classifier: random.below(2) as u8,
        bands: random.below(4) as u8,
    };
    *out += &format!("ccso_{letter}{}\n", numbers(&line_of(&c)));
    let offsets: Vec<i64> = (0..16 << c.bands).map(|_| random.within(-10, 7)).collect();
    for part in offsets.chunks(16) {
        *out += &format!("offset_{letter}{}\n", numbers(part));
    }
    if random.once_in(2) {
        let flags: Vec<i64> = (0..random.size(1, 12)).map(|_| random.within(0, 1)).collect();
        *out += &format!("flags_{letter}{}\n", numbers(&flags));
    }
}

/// Tile starts of luma, of chroma or of both; chroma's are good for every format.
fn tile_lines(random: &Random, out: &mut String, size: (usize, usize)) {
    for (name, width) in [("tiles_y", size.0), ("tiles_uv", halved(size.0, 1))] {
        let starts: Vec<i64> = plane::some_starts(random, eights(width) as u64 / 4).iter().map(|&s| s as i64).collect();
        if !random.once_in(3) {
            *out += &format!("{name}{}\n", numbers(&starts));
        }
    }
}

/// Rectangles of kept cells: most in the picture, some partly or wholly beyond it, some empty.
fn keep_lines(random: &Random, out: &mut String, size: (usize, usize)) {
    for _ in 0..random.size(1, 5) {
        let at = |n: usize| random.size(0, 2 * n.div_ceil(8) + random.one_of(&[0, 0, 3]));
        let much = || random.one_of(&[1, 1, 2, 3, 5, 8, 40, 65535]) * !random.once_in(12) as usize;
        *out += &format!("keep {} {} {} {}\n", at(size.1), at(size.0), much(), much());
    }
}

fn settings(seed: u64, size: (usize, usize)) -> String {
    let random = Random::new(seed);
    let mut out = String::from("# random settings\nsettings 1\n");
    for _ in 0..random.size(1, 3) {
        let list: Vec<i64> = (0..random.size(1, 9)).map(|_| random.within(100, 300)).collect();
        out += &format!("qindex{}\n", numbers(&list));
    }
    if random.once_in(2) {
        out += &format!("delta_y {}\ndelta_uv   {}  # chroma\n", random.within(-6, 6), random.within(-6, 6));
    }
    let cap = |random: &Random| 1 << random.below(5);
    if random.once_in(2) {
        out += &format!("cap_y {} {}\ncap_uv {} {}\r\n", cap(&random), cap(&random), cap(&random), cap(&random));
    }
    if random.once_in(5) {
        out += "chroma 0\n";
    }
    if random.once_in(2) {
        tile_lines(&random, &mut out, size);
    }
    if !random.once_in(4) {
        tiling(&random, &mut out, "leaf", size);
    }
    if random.once_in(2) {
        tiling(&random, &mut out, "leaf_uv", size);
    }
    if random.once_in(3) {
        let column = 8 * random.below(2);
        out += &format!("\nskip 0 {} 8 8\n", if size.0 <= 32 { 0 } else { column });
    }
    for letter in ["y", "u", "v"] {
        if random.once_in(2) {
            ccso_lines(&random, &mut out, letter);
        }
    }
    if random.once_in(2) {
        keep_lines(&random, &mut out, size);
    }
    out
}

/// A picture of blocks: each its own level, with a little noise.
fn picture(seed: u64) -> Vec<u8> {
    let random = Random::new(seed);
    let f = FORMATS[(seed % 15) as usize];
    let size = (random.size(1, 200), random.size(1, 200));
    let head = format!("YUV4MPEG2 W{} H{} F25:1 Ip A1:1 C{}\nFRAME\n", size.0, size.1, f.0).into_bytes();
    let mut p = Picture { head, size, sub: (f.1, f.2), chroma: f.3, depth: f.4, planes: Default::default() };
    let (top, unit) = ((1i64 << f.4) - 1, 1i64 << (f.4 - 8));
    for plane in 0..if p.chroma { 3 } else { 1 } {
        let (w, h) = p.plane_size(plane);
        let block = random.one_of(&[4, 8, 16, 32]);
        let middle = random.within(0, top);
        let spread = unit * random.one_of(&[2, 6, 12, 30]);
        let across = w.div_ceil(block);
        let levels: Vec<i64> = (0..across * h.div_ceil(block)).map(|_| middle + random.within(-spread, spread)).collect();
        let level = |i: usize| levels[i / w / block * across + i % w / block] + random.within(-1, 1);
        p.planes[plane] = (0..w * h).map(|i| level(i).clamp(0, top) as u16).collect();
    }
    p.bytes()
}

/// A place in the lines of a file: anywhere in its first 120 bytes.
fn early(random: &Random, bytes: &[u8]) -> usize {
    random.size(0, bytes.len().min(120))
}

fn damage(seed: u64, bytes: &[u8]) -> Vec<u8> {
    let random = Random::new(seed);
    let noise = |n: usize| -> Vec<u8> { (0..n).map(|_| random.below(256) as u8).collect() };
    let mut out = bytes.to_vec();
    let at = early(&random, bytes);
    let digits: &[&[u8]] = &[b"0", b"99999999999999999999", b"-1", b"4097", b"65536", b"4294967296", b"x", b"1e3"];
    match seed % 10 {
        0 => out.truncate(random.size(0, bytes.len().saturating_sub(1))),
        1 => out.truncate(at),
        2 => out.clear(),
        3 => out = noise(random.size(1, 5000)),
        4 => drop(out.splice(at..at, noise(1))),
        5 => drop(out.splice(at..bytes.len().min(at + 1), noise(1))),
        6 => drop(out.splice(at..bytes.len().min(at + 1), [])),
        7 => drop(out.splice(at..at, random.one_of(digits).to_vec())),
        8 => out.extend(noise(random.size(1, 3))),
        _ => {
            let word = bytes.iter().take(120).position(|b| b.is_ascii_digit() && random.once_in(3)).unwrap_or(0);
            drop(out.splice(word..word + 1, random.one_of(digits).to_vec()));
        }
    }
    out
}

fn main() {
    let words: Vec<String> = std::env::args().skip(1).collect();
    let number = |k: usize| words[k].parse::<u64>().expect("a number");
    let out = match (words.first().map(String::as_str), words.len()) {
        (Some("settings"), 4) => settings(number(1), (number(2) as usize, number(3) as usize)).into_bytes(),
        (Some("picture"), 2) => picture(number(1)),
        (Some("damage"), 3) => damage(number(1), &std::fs::read(&words[2]).expect("a file")),
        (Some("filter"), 4) => {
            filter(&words[1], &words[2], &words[3]);
            Vec::new()
        }
        (Some("record"), 4) => {
            records(&words[1], &words[2], &words[3]);
            Vec::new()
        }
        _ => {
            eprintln!("pictures settings SEED WIDTH HEIGHT | picture SEED | filter PICTURE SETTINGS OUT | record PICTURE SETTINGS FILE | damage SEED FILE");
            exit(2);
        }
    };
    std::io::stdout().write_all(&out).expect("standard output");
}
