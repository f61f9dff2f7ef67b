//! One plane run, by the published Rust's `deblock_plane` or by our `bihargesh_plane`, `bihargesh_plane_plain` or `bihargesh_rows`, on equal square planes of depth 8.
//!
//!     pace once none|rust|ours SIZE KIND   one run, for counting instructions; `none` stops where the run would begin
//!     pace time SIZE KIND                  medians of 31 runs of each on fresh copies, in nanoseconds: the Rust's, then ours
//!     pace same SIZE KIND                  both once: how many edges and changed samples; fails where the planes differ
//!
//! KIND is the size index of all blocks, or `dark`: index 1, and every qindex 0, so that every threshold is 0; or `plain`: index 1, and ours is `bihargesh_plane_plain`;
//! or `recorded`: index 1, and ours is `bihargesh_record_plane` with a buffer that the record just fills, beside the Rust's run, which writes none;
//! or `kept`: index 1, and one cell in ten is kept (ticket 7), beside the Rust's run, which keeps none. There `same` holds ours to the Rust's segments, one after the other, whose stores to kept cells are taken back;
//! or `rows`: index 1, and ours is `bihargesh_rows`, a call for each 16 rows more, beside the Rust's whole run.

#[path = "src/random.rs"]
mod random;
#[path = "src/rust.rs"]
mod rust;

// The published files name each other below `crate::av2`.
use rust as av2;

use random::Random;
use rust::deblock::{deblock_plane, Joint, PlaneCfg, Run, Settings, TxLayout};
use std::hint::black_box;
use std::process::exit;
use std::time::Instant;

const RUNS: usize = 31;
const DEPTH: u32 = 8;
const SUPERBLOCK: usize = 16;
/// How many rows more each call of `rows` has filled.
const BAND: usize = 16;
/// How far an edge between blocks of a size index reaches to each side, in samples.
const REACH: [usize; 4] = [3, 4, 7, 8];

#[link(name = "cside", kind = "static")]
extern "C" {
    fn bihargesh_plane(
        plane: *mut u16, plane_len: usize,
        vedge: *const u8, vedge_len: usize,
        hedge: *const u8, hedge_len: usize,
        sqw: *const u8, sqw_len: usize,
        sqh: *const u8, sqh_len: usize,
        qindex: *const u16, qindex_len: usize,
        tiles: *const u16, tiles_len: usize,
        keep: *const u8, keep_len: usize,
        steps: *const u32, steps_len: usize,
        settings: *const i32, settings_len: usize,
        place: *mut usize, place_len: usize,
        counts: *mut usize, counts_len: usize,
    ) -> i32;

    fn bihargesh_plane_plain(
        plane: *mut u16, plane_len: usize,
        vedge: *const u8, vedge_len: usize,
        hedge: *const u8, hedge_len: usize,
        sqw: *const u8, sqw_len: usize,
        sqh: *const u8, sqh_len: usize,
        qindex: *const u16, qindex_len: usize,
        tiles: *const u16, tiles_len: usize,
        keep: *const u8, keep_len: usize,
        steps: *const u32, steps_len: usize,
        settings: *const i32, settings_len: usize,
        place: *mut usize, place_len: usize,
        counts: *mut usize, counts_len: usize,
    ) -> i32;

    fn bihargesh_record_plane(
        plane: *mut u16, plane_len: usize,
        record: *mut u8, record_len: usize,
        vedge: *const u8, vedge_len: usize,
        hedge: *const u8, hedge_len: usize,
        sqw: *const u8, sqw_len: usize,
        sqh: *const u8, sqh_len: usize,
        qindex: *const u16, qindex_len: usize,
        tiles: *const u16, tiles_len: usize,
        keep: *const u8, keep_len: usize,
        steps: *const u32, steps_len: usize,
        settings: *const i32, settings_len: usize,
        place: *mut usize, place_len: usize,
        counts: *mut usize, counts_len: usize,
    ) -> i32;

    fn bihargesh_rows(
        plane: *mut u16, plane_len: usize,
        vedge: *const u8, vedge_len: usize,
        hedge: *const u8, hedge_len: usize,
        sqw: *const u8, sqw_len: usize,
        sqh: *const u8, sqh_len: usize,
        qindex: *const u16, qindex_len: usize,
        tiles: *const u16, tiles_len: usize,
        keep: *const u8, keep_len: usize,
        steps: *const u32, steps_len: usize,
        settings: *const i32, settings_len: usize,
        filled: usize,
        state: *mut usize, state_len: usize,
        place: *mut usize, place_len: usize,
        counts: *mut usize, counts_len: usize,
    ) -> i32;
}

/// A plane and its grid: every edge that has room is marked, all blocks have one size index.
struct Scene {
    size: usize,
    cells: usize,
    vertical: Vec<u8>,
    horizontal: Vec<u8>,
    sizes: Vec<u8>,
    qindex: Vec<u16>,
    /// No column starts a tile, as in the Rust.
    tiles: Vec<u16>,
    /// Which cells are kept.
    keep: Vec<u8>,
    steps: Vec<u32>,
    samples: Vec<u16>,
    /// Whether ours writes a record.
    recorded: bool,
    /// Whether ours is the plain engine.
    plain: bool,
    /// Whether ours is told of the rows as they are filled.
    rows: bool,
}

/// Cells of nearly even samples, with small steps from cell to cell, so that every width occurs.
fn samples(random: &Random, size: usize) -> Vec<u16> {
    let cells = size / 4;
    let bases = random.list(cells * cells, 8);
    let at = |y: usize, x: usize| 60 + ((x + y) / 32) as u64 + bases[y / 4 * cells + x / 4] + random.below(2);
    (0..size * size).map(|i| at(i / size, i % size) as u16).collect()
}

impl Scene {
    fn new(size: usize, kind: &str) -> Scene {
        let (dark, recorded, plain, kept, rows) = (kind == "dark", kind == "recorded", kind == "plain", kind == "kept", kind == "rows");
        let index: usize = if dark || recorded || plain || kept || rows { 1 } else { kind.parse().expect("an index") };
        let (random, marks) = (Random::new(13), Random::new(7));
        let cells = size / 4;
        let room = |k: usize| (k > 0 && 4 * k >= REACH[index] && 4 * k + REACH[index] <= size) as u8;
        Scene {
            size,
            cells,
            vertical: (0..cells * cells).map(|i| room(i % cells)).collect(),
            horizontal: (0..cells * cells).map(|i| room(i / cells)).collect(),
            sizes: vec![index as u8; cells * cells],
            qindex: (0..cells * cells).map(|_| if dark { 0 } else { random.size(120, 215) as u16 }).collect(),
            tiles: Vec::new(),
            keep: (0..cells * cells).map(|_| (kept && marks.once_in(10)) as u8).collect(),
            steps: rust::quant::steps(),
            samples: samples(&random, size),
            recorded,
            plain,
            rows,
        }
    }

    /// A buffer that the record just fills; an empty one where none is written.
    fn buffer(&self) -> Vec<u8> {
        vec![0; if self.recorded { 5 + 10 * self.edges() } else { 0 }]
    }

    fn edges(&self) -> usize {
        self.vertical.iter().chain(&self.horizontal).filter(|&&mark| mark == 1).count()
    }
}

/// The Rust's form of a scene: f32 samples, and marks as bools.
struct Floats {
    samples: Vec<f32>,
    vertical: Vec<bool>,
    horizontal: Vec<bool>,
}

impl Floats {
    fn new(s: &Scene) -> Floats {
        let bools = |marks: &[u8]| marks.iter().map(|&mark| mark == 1).collect();
        Floats {
            samples: s.samples.iter().map(|&v| v as f32).collect(),
            vertical: bools(&s.vertical),
            horizontal: bools(&s.horizontal),
        }
    }
}

#[inline(never)]
fn run_rust(s: &Scene, f: &mut Floats) {
    let layout = TxLayout {
        mi_cols: s.cells,
        mi_rows: s.cells,
        vedge: &f.vertical,
        hedge: &f.horizontal,
        sq_w: &s.sizes,
        sq_h: &s.sizes,
        qindex: &s.qindex,
    };
    let mut config = PlaneCfg {
        buf: &mut f.samples,
        stride: s.size,
        width: s.size,
        height: s.size,
        is_chroma: false,
        bit_depth: DEPTH,
        delta_q: 0,
        delta_side: 0,
        sb_mi_w: SUPERBLOCK,
        sb_mi_h: SUPERBLOCK,
    };
    deblock_plane(black_box(&mut config), black_box(&layout), true, true);
}

/// Cells each way, stride, width and height, superblock size in cells, chroma, depth, both deltas.
fn settings(s: &Scene) -> Vec<i32> {
    [s.cells, s.cells, s.size, s.size, s.size, SUPERBLOCK, SUPERBLOCK, 0, DEPTH as usize, 0, 0].iter().map(|&n| n as i32).collect()
}

#[inline(never)]
fn run_recorded(s: &Scene, plane: &mut [u16], record: &mut [u8]) {
    let settings = settings(s);
    let (mut place, mut counts) = ([0usize], [0usize; 2]);
    // SAFETY: each pointer is that of a live list, beside its length; so below.
    let answer = unsafe {
        bihargesh_record_plane(
            plane.as_mut_ptr(), plane.len(),
            record.as_mut_ptr(), record.len(),
            s.vertical.as_ptr(), s.vertical.len(),
            s.horizontal.as_ptr(), s.horizontal.len(),
            s.sizes.as_ptr(), s.sizes.len(),
            s.sizes.as_ptr(), s.sizes.len(),
            s.qindex.as_ptr(), s.qindex.len(),
            s.tiles.as_ptr(), s.tiles.len(),
            s.keep.as_ptr(), s.keep.len(),
            s.steps.as_ptr(), s.steps.len(),
            settings.as_ptr(), settings.len(),
            place.as_mut_ptr(), place.len(),
            counts.as_mut_ptr(), counts.len(),
        )
    };
    black_box(counts);
    assert!(answer == record.len() as i32, "the record of {} bytes was answered by {answer} at {}", record.len(), place[0]);
}

/// A call for each band more, until all rows are filled; each says that all rows but the last twelve are final, the last that all are.
#[inline(never)]
fn run_rows(s: &Scene, plane: &mut [u16]) {
    let settings = settings(s);
    let (mut state, mut place, mut counts) = ([0usize; 2], [0usize], [0usize; 2]);
    for filled in (BAND..=s.size).step_by(BAND) {
        let answer = unsafe {
            bihargesh_rows(
                plane.as_mut_ptr(), plane.len(),
                s.vertical.as_ptr(), s.vertical.len(),
                s.horizontal.as_ptr(), s.horizontal.len(),
                s.sizes.as_ptr(), s.sizes.len(),
                s.sizes.as_ptr(), s.sizes.len(),
                s.qindex.as_ptr(), s.qindex.len(),
                s.tiles.as_ptr(), s.tiles.len(),
                s.keep.as_ptr(), s.keep.len(),
                s.steps.as_ptr(), s.steps.len(),
                settings.as_ptr(), settings.len(),
                filled,
                state.as_mut_ptr(), state.len(),
                place.as_mut_ptr(), place.len(),
                counts.as_mut_ptr(), counts.len(),
            )
        };
        black_box(counts);
        let due = if filled < s.size { filled - 12 } else { s.size };
        assert!(answer == due as i32, "{due} rows are final when {filled} are filled, and {answer} was answered, at {}", place[0]);
    }
}

#[inline(never)]
fn run_ours(s: &Scene, plane: &mut [u16], record: &mut [u8]) {
    if s.recorded {
        return run_recorded(s, plane, record);
    }
    if s.rows {
        return run_rows(s, plane);
    }
    let settings = settings(s);
    let (mut place, mut counts) = ([0usize], [0usize; 2]);
    let engine = if s.plain { bihargesh_plane_plain } else { bihargesh_plane };
    let answer = unsafe {
        engine(
            plane.as_mut_ptr(), plane.len(),
            s.vertical.as_ptr(), s.vertical.len(),
            s.horizontal.as_ptr(), s.horizontal.len(),
            s.sizes.as_ptr(), s.sizes.len(),
            s.sizes.as_ptr(), s.sizes.len(),
            s.qindex.as_ptr(), s.qindex.len(),
            s.tiles.as_ptr(), s.tiles.len(),
            s.keep.as_ptr(), s.keep.len(),
            s.steps.as_ptr(), s.steps.len(),
            settings.as_ptr(), settings.len(),
            place.as_mut_ptr(), place.len(),
            counts.as_mut_ptr(), counts.len(),
        )
    };
    black_box(counts);
    assert!(answer == 0, "the plane was refused by {} at {}", -answer, place[0]);
}

/// One run of one side, after what every run makes ready.
fn once(s: &Scene, side: &str) {
    let mut floats = black_box(Floats::new(s));
    let mut plane = black_box(s.samples.clone());
    let mut record = black_box(s.buffer());
    match side {
        "rust" => run_rust(s, &mut floats),
        "ours" => run_ours(s, &mut plane, &mut record),
        _ => {}
    }
    black_box((&floats.samples, &plane, &record));
}

fn median(mut times: Vec<u128>) -> u128 {
    times.sort();
    times[times.len() / 2]
}

fn nanoseconds(run: impl FnOnce()) -> u128 {
    let began = Instant::now();
    run();
    began.elapsed().as_nanos()
}

/// Both sides in turn, so that what else the machine does falls on both alike.
fn time(s: &Scene) {
    let (mut theirs, mut ours) = (Vec::new(), Vec::new());
    for _ in 0..RUNS {
        let mut floats = Floats::new(s);
        theirs.push(nanoseconds(|| run_rust(s, &mut floats)));
        let (mut plane, mut record) = (s.samples.clone(), s.buffer());
        ours.push(nanoseconds(|| run_ours(s, &mut plane, &mut record)));
    }
    println!("{} {}", median(theirs), median(ours));
}

/// The Rust's segments in the plain order, all vertical edges and then all horizontal ones; no sample of a kept cell is stored.
fn by_segments(s: &Scene, keep: &[u8]) -> Vec<u16> {
    let (cells, size) = ((s.cells, s.cells), (s.size, s.size));
    let settings = Settings { cells, stride: s.size, size, superblock: (SUPERBLOCK, SUPERBLOCK), chroma: false, depth: DEPTH as u64, delta_q: 0, delta_side: 0 };
    let kept = (0..s.size * s.size).map(|i| keep[i / s.size / 4 * s.cells + i % s.size / 4] == 1).collect();
    let mut run = Run::new(&settings, &s.samples, kept);
    for (marks, back, perp, line) in [(&s.vertical, 1, 1, s.size), (&s.horizontal, s.cells, s.size, 1)] {
        for here in (0..marks.len()).filter(|&here| marks[here] == 1) {
            let (row, column) = (here / s.cells, here % s.cells);
            let shortened = back > 1 && row % SUPERBLOCK == 0;
            let qindex = (s.qindex[here], s.qindex[here - back]);
            run.edge(&Joint { base: 4 * (row * s.size + column), perp, line, index: s.sizes[here], shortened, qindex });
        }
    }
    run.end()
}

/// The plane that is due: the Rust's, or with kept cells that of its segments, which without them must be the Rust's.
fn due(s: &Scene) -> Vec<u16> {
    let mut floats = Floats::new(s);
    run_rust(s, &mut floats);
    let rust: Vec<u16> = floats.samples.iter().map(|&f| f as u16).collect();
    if !s.keep.contains(&1) {
        return rust;
    }
    assert!(by_segments(s, &vec![0; s.keep.len()]) == rust, "the Rust's segments, one after the other, leave another plane");
    by_segments(s, &s.keep)
}

fn same(s: &Scene) {
    let (mut plane, mut record) = (s.samples.clone(), s.buffer());
    let due = due(s);
    run_ours(s, &mut plane, &mut record);
    if let Some(at) = (0..plane.len()).find(|&i| plane[i] != due[i]) {
        eprintln!("the planes differ first at offset {at}: {} is due, ours is {}", due[at], plane[at]);
        exit(1);
    }
    let changed = (0..plane.len()).filter(|&i| plane[i] != s.samples[i]).count();
    println!("{} {changed}", s.edges());
}

fn main() {
    let words: Vec<String> = std::env::args().skip(1).collect();
    let words: Vec<&str> = words.iter().map(String::as_str).collect();
    let scene = |size: &str, kind: &str| Scene::new(size.parse().expect("a size"), kind);
    match words.as_slice() {
        ["once", side, size, kind] => once(&scene(size, kind), side),
        ["time", size, kind] => time(&scene(size, kind)),
        ["same", size, kind] => same(&scene(size, kind)),
        _ => {
            eprintln!("pace once none|rust|ours SIZE KIND | pace time SIZE KIND | pace same SIZE KIND");
            exit(2);
        }
    }
}
