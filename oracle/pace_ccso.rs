//! One run of the gated offsets, by the published Rust's `apply_edge_gated` or by our `bihargesh_ccso`, on equal square pictures of depth 8
//! with every block's flag on. The Rust's extended luma is made before the run begins and not counted.
//!
//!     pace_ccso once none|rust|ours SIZE SUB   one run, for counting instructions; `none` stops where the run would begin
//!     pace_ccso time SIZE SUB                  medians of 31 runs of each on fresh copies, in nanoseconds: the Rust's, then ours
//!     pace_ccso same SIZE SUB                  both once: how many target samples there are and how many changed; fails where the targets differ
//!
//! SUB is 0 for a target of luma's size, 1 for one of half its width, 2 for one of half its width and height.

#[path = "src/random.rs"]
mod random;
#[path = "src/rust.rs"]
mod rust;

// The published files name each other below `crate::av2`.
use rust as av2;

use random::Random;
use rust::ccso::{apply_edge_gated, extend_luma, CcsoEdgeResult, CcsoGeometry, CcsoGrid, Choice};
use std::hint::black_box;
use std::process::exit;
use std::time::Instant;

const RUNS: usize = 31;
const DEPTH: u32 = 8;
const BLOCK: usize = 64;
const CHOICE: Choice = Choice { scale: 1, quantizer: 1, support: 4, classifier: 0, bands: 2 };

#[link(name = "cside", kind = "static")]
extern "C" {
    fn bihargesh_ccso(
        luma: *const u16, luma_len: usize,
        target: *mut u16, target_len: usize,
        flags: *const u8, flags_len: usize,
        offsets: *const i8, offsets_len: usize,
        settings: *const i32, settings_len: usize,
        place: *mut usize, place_len: usize,
    ) -> i32;
}

/// Luma and a target of a subsampling, with the offsets and the flags.
struct Scene {
    size: usize,
    sub: (usize, usize),
    luma: Vec<u16>,
    target: Vec<u16>,
    flags: Vec<u8>,
    offsets: Vec<i8>,
}

/// Cells of nearly even samples, with steps from cell to cell of up to `step`.
fn samples(random: &Random, width: usize, height: usize, step: u64) -> Vec<u16> {
    let cells = width.div_ceil(4);
    let bases = random.list(cells * height.div_ceil(4), step);
    let at = |y: usize, x: usize| 60 + ((x + y) / 32) as u64 + bases[y / 4 * cells + x / 4] + random.below(2);
    (0..width * height).map(|i| at(i / width, i % width).min(255) as u16).collect()
}

impl Scene {
    fn new(size: usize, sub: usize) -> Scene {
        let random = Random::new(13);
        let sub = [(0, 0), (1, 0), (1, 1)][sub];
        let blocks = size.div_ceil(BLOCK);
        Scene {
            size,
            sub,
            luma: samples(&random, size, size, 120),
            target: samples(&random, (size + sub.0) >> sub.0, (size + sub.1) >> sub.1, 8),
            flags: vec![1; blocks * blocks],
            offsets: (0..16 << CHOICE.bands).map(|_| random.within(-10, 7) as i8).collect(),
        }
    }

    /// The numbers of our settings, in their order.
    fn settings(&self) -> [i32; 16] {
        let (cut, taps) = (CHOICE.cut() as i32, CHOICE.taps());
        let (size, sub) = (self.size as i32, self.sub);
        let [(dx0, dy0), (dx1, dy1)] = taps.map(|(dx, dy)| (dx as i32, dy as i32));
        let scale = CHOICE.scale() as i32;
        [size, size, sub.0 as i32, sub.1 as i32, DEPTH as i32, scale, -cut, cut, 0, 1, 2, dx0, dy0, dx1, dy1, CHOICE.bands as i32]
    }
}

/// The Rust's form of a scene: luma extended, the target in f32, and the offsets as it holds them.
struct Floats {
    extended: Vec<i32>,
    stride: usize,
    target: Vec<f32>,
    result: CcsoEdgeResult,
}

impl Floats {
    fn new(s: &Scene) -> Floats {
        let floats = |samples: &[u16]| samples.iter().map(|&v| v as f32).collect::<Vec<f32>>();
        let (extended, stride) = extend_luma(&floats(&s.luma), s.size, s.size);
        let result = CcsoEdgeResult {
            scale_idx: CHOICE.scale,
            quant_idx: CHOICE.quantizer,
            ext_filter_support: CHOICE.support,
            edge_clf: CHOICE.classifier,
            max_band_log2: CHOICE.bands,
            offsets: s.offsets.iter().map(|&o| o as i32).collect(),
        };
        Floats { extended, stride, target: floats(&s.target), result }
    }
}

#[inline(never)]
fn run_rust(s: &Scene, f: &mut Floats) {
    let geometry = CcsoGeometry {
        extended_luma: &f.extended,
        extended_stride: f.stride,
        width: (s.size + s.sub.0) >> s.sub.0,
        height: (s.size + s.sub.1) >> s.sub.1,
        horizontal_subsampling: s.sub.0,
        vertical_subsampling: s.sub.1,
        bit_depth: DEPTH,
    };
    let grid = CcsoGrid { flags: &s.flags, sb_cols: s.size.div_ceil(BLOCK) };
    apply_edge_gated(black_box(&geometry), black_box(&mut f.target), black_box(&f.result), black_box(&grid));
}

#[inline(never)]
fn run_ours(s: &Scene, target: &mut [u16]) {
    let settings = black_box(s.settings());
    let mut place = [0];
    // SAFETY: each pointer is that of a live list, beside its length.
    let answer = unsafe {
        bihargesh_ccso(
            s.luma.as_ptr(), s.luma.len(),
            target.as_mut_ptr(), target.len(),
            s.flags.as_ptr(), s.flags.len(),
            s.offsets.as_ptr(), s.offsets.len(),
            settings.as_ptr(), settings.len(),
            place.as_mut_ptr(), place.len(),
        )
    };
    assert!(answer == 0, "the picture was refused by {} at {}", -answer, place[0]);
}

/// One run of one side, after what every run makes ready.
fn once(s: &Scene, side: &str) {
    let mut floats = black_box(Floats::new(s));
    let mut target = black_box(s.target.clone());
    match side {
        "rust" => run_rust(s, &mut floats),
        "ours" => run_ours(s, &mut target),
        _ => {}
    }
    black_box((&floats.target, &target));
}

fn median(mut times: Vec<u128>) -> u128 {
    times.sort();
    times[times.len() / 2]
}

fn nanoseconds(run: impl FnOnce()) -> u128 {
    let began = Instant::now();
    run();
    began.elapsed().as_nanos()
}

/// Both sides in turn, so that what else the machine does falls on both alike.
fn time(s: &Scene) {
    let (mut theirs, mut ours) = (Vec::new(), Vec::new());
    for _ in 0..RUNS {
        let mut floats = Floats::new(s);
        theirs.push(nanoseconds(|| run_rust(s, &mut floats)));
        let mut target = s.target.clone();
        ours.push(nanoseconds(|| run_ours(s, &mut target)));
    }
    println!("{} {}", median(theirs), median(ours));
}

fn same(s: &Scene) {
    let mut floats = Floats::new(s);
    let mut target = s.target.clone();
    run_rust(s, &mut floats);
    run_ours(s, &mut target);
    if let Some(at) = (0..target.len()).find(|&i| target[i] as f32 != floats.target[i]) {
        eprintln!("the targets differ first at offset {at}: the Rust has {}, ours {}", floats.target[at], target[at]);
        exit(1);
    }
    let changed = (0..target.len()).filter(|&i| target[i] != s.target[i]).count();
    println!("{} {changed}", target.len());
}

fn main() {
    let words: Vec<String> = std::env::args().skip(1).collect();
    let words: Vec<&str> = words.iter().map(String::as_str).collect();
    let scene = |size: &str, sub: &str| Scene::new(size.parse().expect("a size"), sub.parse().expect("a subsampling"));
    match words.as_slice() {
        ["once", side, size, sub] => once(&scene(size, sub), side),
        ["time", size, sub] => time(&scene(size, sub)),
        ["same", size, sub] => same(&scene(size, sub)),
        _ => {
            eprintln!("pace_ccso once none|rust|ours SIZE SUB | pace_ccso time SIZE SUB | pace_ccso same SIZE SUB");
            exit(2);
        }
    }
}
