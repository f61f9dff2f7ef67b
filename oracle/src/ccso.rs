//! Gated CCSO offsets: kind 1 answered by the Rust's apply_edge_gated, kind 2, with settings the Rust has not, by document 01's words.

use crate::grid::{size, SUBSAMPLINGS};
use crate::line::Line;
use crate::random::Random;
use crate::rust::ccso::{self, Choice, Picture};
use crate::thresholds::DEPTHS;
use crate::{damage, picture, refusals, made::Made};

pub struct Case {
    pub size: (u64, u64),
    pub sub: (u64, u64),
    pub depth: u64,
    pub scale: u64,
    pub cuts: (i64, i64),
    pub classes: [u64; 3],
    pub taps: [(i64, i64); 2],
    pub bands: u64,
    pub luma: Vec<u16>,
    pub target: Vec<u16>,
    pub flags: Vec<u8>,
    pub offsets: Vec<i32>,
}

impl Case {
    pub fn target_size(&self) -> (u64, u64) {
        ((self.size.0 + self.sub.0) >> self.sub.0, (self.size.1 + self.sub.1) >> self.sub.1)
    }
}

fn length(random: &Random) -> u64 {
    match random.below(40) {
        0 | 1 => random.size(1, 200) as u64,
        2..=5 => random.size(1, 80) as u64,
        _ => random.size(1, 24) as u64,
    }
}

/// Luma's width and height; seldom the largest that document 01 takes, along one of them.
fn lengths(random: &Random) -> (u64, u64) {
    match random.below(400) {
        0 => (4096, random.size(1, 2) as u64),
        1 => (random.size(1, 2) as u64, 4096),
        _ => (length(random), length(random)),
    }
}

/// A picture of small and large differences.
fn field(random: &Random, width: u64, height: u64, depth: u64) -> Vec<u16> {
    let spare = picture::spare(random);
    picture::samples(random, width as usize, height as usize, depth, spare)
}

fn flags(random: &Random, size: (u64, u64)) -> Vec<u8> {
    let n = (size.0.div_ceil(64) * size.1.div_ceil(64)) as usize + picture::spare(random);
    (0..n).map(|_| random.one_of(&[0, 1, 1, 2, 255])).collect()
}

fn offsets(random: &Random, bands: u64) -> Vec<i32> {
    let n = (16 << bands) + picture::spare(random);
    (0..n).map(|_| random.one_of(&[-10, -7, 7, 0, random.within(-10, 7)]) as i32).collect()
}

/// A case with the Rust's own settings.
fn good(random: &Random, choice: &Choice) -> Case {
    let mut c = Case {
        size: lengths(random),
        sub: random.one_of(&SUBSAMPLINGS),
        depth: random.one_of(&DEPTHS),
        scale: choice.scale() as u64,
        cuts: (-choice.cut(), choice.cut()),
        classes: if choice.classifier == 0 { [0, 1, 2] } else { [0, 1, 1] },
        taps: choice.taps(),
        bands: choice.bands as u64,
        luma: Vec::new(),
        target: Vec::new(),
        flags: Vec::new(),
        offsets: offsets(random, choice.bands as u64),
    };
    c.luma = field(random, c.size.0, c.size.1, c.depth);
    c.target = field(random, c.target_size().0, c.target_size().1, c.depth);
    c.flags = flags(random, c.size);
    c
}

fn choice(random: &Random) -> Choice {
    Choice {
        scale: random.below(4) as u8,
        quantizer: random.below(4) as u8,
        support: random.below(7) as u8,
        classifier: random.below(2) as u8,
        bands: random.below(4) as u8,
    }
}

/// Settings that document 01 takes and the Rust has no counterpart for.
fn generalize(random: &Random, c: &mut Case) {
    c.scale = random.size(1, 16) as u64;
    let cut = |random: &Random| random.one_of(&[-4095, 0, 4095, random.within(-4095, 4095), random.within(-40, 40)]);
    let (a, b) = (cut(random), cut(random));
    c.cuts = (a.min(b), a.max(b));
    c.classes = [random.below(4), random.below(4), random.below(4)];
    let tap = |random: &Random| random.one_of(&[-16, 16, 0, random.within(-16, 16)]);
    c.taps = [(tap(random), tap(random)), (tap(random), tap(random))];
}

/// The target by document 01's words.
fn plain(c: &Case) -> Vec<u16> {
    let mut target = c.target.clone();
    let (width, height) = c.target_size();
    let blocks = c.size.0.div_ceil(64);
    for y in 0..height {
        for x in 0..width {
            if c.flags[(y / (64 >> c.sub.1) * blocks + x / (64 >> c.sub.0)) as usize] != 0 {
                let at = (y * width + x) as usize;
                let moved = c.target[at] as i64 + offset(c, x, y) * c.scale as i64;
                target[at] = moved.clamp(0, refusals::top(c.depth) as i64) as u16;
            }
        }
    }
    target
}

/// The offset that stands for a target sample.
fn offset(c: &Case, x: u64, y: u64) -> i64 {
    let (lx, ly) = ((x << c.sub.0) as i64, (y << c.sub.1) as i64);
    let luma = |x: i64, y: i64| {
        let (x, y) = (x.clamp(0, c.size.0 as i64 - 1), y.clamp(0, c.size.1 as i64 - 1));
        c.luma[(y * c.size.0 as i64 + x) as usize] as i64
    };
    let centre = luma(lx, ly);
    let class = |tap: (i64, i64)| {
        let difference = luma(lx + tap.0, ly + tap.1) - centre;
        if difference < c.cuts.0 {
            c.classes[0]
        } else if difference <= c.cuts.1 {
            c.classes[1]
        } else {
            c.classes[2]
        }
    };
    let band = centre as u64 / (1 << (c.depth - c.bands));
    c.offsets[(16 * band + 4 * class(c.taps[0]) + class(c.taps[1])) as usize] as i64
}

fn damaged(random: &Random, c: &mut Case) {
    for _ in 0..random.one_of(&[1, 1, 2, 3]) {
        if random.once_in(2) {
            damaged_settings(random, c);
        } else {
            damaged_lists(random, c);
        }
    }
}

fn damaged_settings(random: &Random, c: &mut Case) {
    match random.below(10) {
        0 => c.depth = damage::depth(random),
        1 => c.size.0 = damage::count(random, 4096),
        2 => c.size.1 = damage::count(random, 4096),
        3 => c.sub = damage::subsampling(random),
        4 => c.scale = damage::count(random, 16),
        5 => c.cuts.0 = random.one_of(&[(c.cuts.1 + 1).min(i32::MAX as i64), -4096, i32::MIN as i64]),
        6 => c.cuts.1 = random.one_of(&[(c.cuts.0 - 1).max(i32::MIN as i64), 4096, i32::MAX as i64]),
        7 => c.classes[random.below(3) as usize] = damage::above(random, 3),
        8 => {
            let tap = &mut c.taps[random.below(2) as usize];
            let part = if random.once_in(2) { &mut tap.0 } else { &mut tap.1 };
            *part = damage::signed(random, -16, 16);
        }
        _ => c.bands = damage::above(random, 3),
    }
}

fn damaged_lists(random: &Random, c: &mut Case) {
    let used = 16 << c.bands.min(3);
    let top = refusals::top(c.depth.min(12));
    let (luma, target) = (c.luma.len(), c.target.len());
    match random.below(7) {
        0 => damage::shorten(random, &mut c.luma, luma as u64),
        1 => damage::shorten(random, &mut c.target, target as u64),
        2 => {
            let needed = c.flags.len() as u64;
            damage::shorten(random, &mut c.flags, needed);
        }
        3 => damage::shorten(random, &mut c.offsets, used),
        4 => {
            let at = random.below(used + 2) as usize;
            if at < c.offsets.len() {
                c.offsets[at] = damage::signed(random, -10, 7) as i32;
            }
        }
        5 => damage::samples(random, &mut c.luma, luma, top),
        _ => damage::samples(random, &mut c.target, target, top),
    }
}

pub fn make(random: &Random, refused: bool, _: Option<&[u32]>) -> Made {
    let choice = choice(random);
    let mut c = good(random, &choice);
    let general = random.once_in(3);
    if general {
        generalize(random, &mut c);
    }
    if refused {
        damaged(random, &mut c);
    }
    // Damage can turn the settings into others that are taken, so only an untouched case goes to the Rust.
    answered(c, if general || refused { None } else { Some(choice) })
}

fn by_rust(c: &Case, choice: &Choice) -> Vec<u16> {
    let over = Picture { luma: &c.luma, size: size(c.size), sub: size(c.sub), depth: c.depth };
    let offsets: Vec<i64> = c.offsets.iter().map(|&o| o as i64).collect();
    let target = ccso::apply(&over, choice, &c.target, &c.flags, &offsets);
    assert!(target == plain(c), "document 01's words and the Rust differ");
    target
}

fn answered(c: Case, choice: Option<Choice>) -> Made {
    let refusal = refusals::of_ccso(&c);
    let mut line = Line::new(if choice.is_some() { 1 } else { 2 });
    line.unsigned(&[c.size.0, c.size.1, c.sub.0, c.sub.1, c.depth, c.scale])
        .signed(&[c.cuts.0, c.cuts.1])
        .unsigned(&c.classes)
        .signed(&[c.taps[0].0, c.taps[0].1, c.taps[1].0, c.taps[1].1])
        .unsigned(&[c.bands])
        .list(&c.luma)
        .list(&c.target)
        .list(&c.flags)
        .list(&c.offsets);
    if let Some(r) = refusal {
        line.unsigned(&[r.no, r.place]);
        return Made { line, refusal, ..Made::default() };
    }
    let target = choice.map_or_else(|| plain(&c), |choice| by_rust(&c, &choice));
    line.unsigned(&[0, 0]).entries(&target);
    Made { line, refusal, changed: target != c.target, ..Made::default() }
}
