//! The published Rust files, included unchanged, with one plain function over each of theirs that is compared.

#![allow(dead_code)]

pub mod quant {
    include!(concat!(env!("MAROONTREE"), "/src/av2/quant.rs"));

    /// The step table that `qstep` stands for: 352 entries.
    pub fn steps() -> Vec<u32> {
        (0..352).map(qstep).collect()
    }
}

/// Stand-ins for what only the search of ccso.rs uses, which is never called here.
pub mod helpers {
    pub struct PlaneRect<'a> {
        pub plane: &'a [f32],
        pub stride: usize,
        pub y: usize,
        pub x: usize,
    }

    pub fn pixel_sse_f32(_: &[f32], _: &[f32]) -> f32 {
        unreachable!("the search is not compared")
    }

    pub fn rect_sse_f32(_: &PlaneRect, _: &PlaneRect, _: usize, _: usize) -> f32 {
        unreachable!("the search is not compared")
    }

    pub fn weighted_pixel_sse_f32(_: &[f32], _: &[f32], _: &[f32]) -> f32 {
        unreachable!("the search is not compared")
    }
}

/// A plane as the Rust holds it.
fn to_floats(samples: &[u16]) -> Vec<f32> {
    samples.iter().map(|&s| s as f32).collect()
}

/// A plane of the Rust back in whole numbers.
fn to_samples(floats: &[f32]) -> Vec<u16> {
    floats.iter().map(|&f| whole(f)).collect()
}

/// A float that must be a whole sample number.
fn whole(f: f32) -> u16 {
    let s = f as u16;
    assert!(s as f32 == f, "the Rust left {f}, which is no sample");
    s
}

pub mod deblock {
    include!(concat!(env!("MAROONTREE"), "/src/av2/deblock.rs"));

    use super::{to_floats, to_samples};

    pub type Leaf = (usize, usize, usize, usize);

    pub fn thresholds(curr: i64, prev: i64, delta_q: i64, delta_side: i64, depth: u64) -> (i64, i64) {
        let (q, side) = combine_thresholds(curr as i32, prev as i32, delta_q as i32, delta_side as i32, depth as u32);
        (q as i64, side as i64)
    }

    /// A lone segment's geometry in the Rust's terms: q0 of line 0, across the edge, and from line to line.
    pub struct Span {
        pub base: usize,
        pub perp: usize,
        pub line: usize,
        pub lengths: (i64, i64),
    }

    impl Span {
        /// The places of nine samples on each side of the edge, on the four lines; those of a list that is so long.
        fn places(&self, length: usize) -> Vec<usize> {
            let at = |line: usize, k: isize| (self.base + line * self.line) as isize + k * self.perp as isize;
            (0..4).flat_map(|line| (-9..9).map(move |k| at(line, k))).filter(|&p| 0 <= p && p < length as isize).map(|p| p as usize).collect()
        }
    }

    /// The width that the Rust chooses.
    pub fn width(plane: &[u16], at: &Span, q: i64, side: i64) -> usize {
        let floats = to_floats(plane);
        let first = read_line(&floats, at.base as isize, at.perp as isize);
        let last = read_line(&floats, (at.base + 3 * at.line) as isize, at.perp as isize);
        filt_choice(&first, &last, at.lengths.0 as i32, at.lengths.1 as i32, q as i32, side as i32) as usize
    }

    /// The plane after the Rust filtered one segment.
    pub fn segment(plane: &[u16], at: &Span, q: i64, side: i64, depth: u64) -> Vec<u16> {
        let mut floats = to_floats(plane);
        run_segment(&mut floats, at, q, side, depth);
        to_samples(&floats)
    }

    fn run_segment(floats: &mut [f32], at: &Span, q: i64, side: i64, depth: u64) {
        filter_segment(
            floats,
            at.base as isize,
            at.perp as isize,
            at.line as isize,
            at.lengths.0 as i32,
            at.lengths.1 as i32,
            q as i32,
            side as i32,
            (1 << depth) - 1,
        );
    }

    /// What the Rust did to a plane's samples.
    #[derive(Clone, Copy, Default, PartialEq, Debug)]
    pub struct Counts {
        /// How many samples it stored.
        pub stored: u64,
        /// How many of these stores left another sample than was there.
        pub changed: u64,
        /// How many would have left the range but for its limits; no answer has it.
        pub limited: u64,
    }

    impl Counts {
        pub fn add(&mut self, more: Counts) {
            self.stored += more.stored;
            self.changed += more.changed;
            self.limited += more.limited;
        }
    }

    /// A plane on which every store of the Rust is seen: each sample lies a half above its number. The Rust cuts what it reads to whole
    /// numbers and stores whole ones, so a sample whose half is gone was stored.
    pub struct Watched {
        floats: Vec<f32>,
        kept: Vec<bool>,
        counts: Counts,
    }

    impl Watched {
        pub fn new(plane: &[u16]) -> Watched {
            Watched::keeping(plane, vec![false; plane.len()])
        }

        /// The same where some samples lie in kept cells (ticket 7).
        pub fn keeping(plane: &[u16], kept: Vec<bool>) -> Watched {
            Watched { floats: plane.iter().map(|&s| s as f32 + 0.5).collect(), kept, counts: Counts::default() }
        }

        /// The Rust's segment; what it stored is counted and lies a half above its number again. A store to a kept sample is none: it is undone and not counted.
        pub fn segment(&mut self, at: &Span, q: i64, side: i64, depth: u64) {
            let places = at.places(self.floats.len());
            let before: Vec<f32> = places.iter().map(|&place| self.floats[place]).collect();
            run_segment(&mut self.floats, at, q, side, depth);
            let free = unlimited(&before, at, q, side);
            for (k, &place) in places.iter().enumerate() {
                let new = self.floats[place];
                if self.kept[place] {
                    self.floats[place] = before[k];
                } else if new.fract() == 0.0 {
                    let limited = free.get(k).is_some_and(|&f| f != new);
                    self.counts.add(Counts { stored: 1, changed: (new != before[k].floor()) as u64, limited: limited as u64 });
                    self.floats[place] = new + 0.5;
                }
            }
        }

        /// The plane, and what was counted; a store anywhere else would have left a sample without its half.
        pub fn end(self) -> (Vec<u16>, Counts) {
            assert!(self.floats.iter().all(|f| f.fract() == 0.5), "the Rust stored a sample that no segment reaches");
            (self.floats.iter().map(|f| f.floor() as u16).collect(), self.counts)
        }
    }

    /// What a segment stores where no limit acts: nine samples on each side of four lines, filtered far from both ends of a wide range. None where the plane ends nearer.
    fn unlimited(samples: &[f32], at: &Span, q: i64, side: i64) -> Vec<f32> {
        if samples.len() < 72 {
            return Vec::new();
        }
        let far = 8192.0;
        let mut floats: Vec<f32> = samples.iter().map(|f| f + far).collect();
        run_segment(&mut floats, &Span { base: 9, perp: 1, line: 18, lengths: at.lengths }, q, side, 20);
        floats.iter().map(|f| f.floor() - far).collect()
    }

    /// A plane's four grid lists.
    #[derive(Clone)]
    pub struct Marks {
        pub vertical: Vec<u8>,
        pub horizontal: Vec<u8>,
        pub width: Vec<u8>,
        pub height: Vec<u8>,
    }

    pub fn tx_grid(leaves: &[Leaf], skips: &[Leaf], cells: (usize, usize), sub: (usize, usize), cap: (usize, usize)) -> Marks {
        let (v, h, w, t) = build_tx_grid(leaves, skips, cells.0, cells.1, sub.0, sub.1, cap.0, cap.1);
        Marks {
            vertical: v.iter().map(|&m| m as u8).collect(),
            horizontal: h.iter().map(|&m| m as u8).collect(),
            width: w,
            height: t,
        }
    }

    pub fn qindex_grid(entries: &[u16], sb_cols: usize, cells: (usize, usize), sub: (usize, usize)) -> Vec<u16> {
        qindex_grid_from(7, entries, sb_cols, cells, sub)
    }

    /// The same, from the `base_q` that is given.
    pub fn qindex_grid_from(base: u16, entries: &[u16], sb_cols: usize, cells: (usize, usize), sub: (usize, usize)) -> Vec<u16> {
        build_qindex_grid(entries, sb_cols, cells.0, cells.1, sub.0, sub.1, base)
    }

    /// A line's samples before and after an edge, as the Rust reads them.
    pub fn line(floats: &[f32], base: isize, perp: isize) -> ([i32; 9], [i32; 9]) {
        let line = read_line(floats, base, perp);
        (line.p, line.q)
    }

    /// A plane's settings.
    #[derive(Clone)]
    pub struct Settings {
        pub cells: (usize, usize),
        pub stride: usize,
        pub size: (usize, usize),
        pub superblock: (usize, usize),
        pub chroma: bool,
        pub depth: u64,
        pub delta_q: i64,
        pub delta_side: i64,
    }

    /// The plane after the Rust deblocked it.
    pub fn plane(s: &Settings, marks: &Marks, qindex: &[u16], plane: &[u16]) -> Vec<u16> {
        plane_by(s, marks, qindex, plane, (true, true))
    }

    /// The same with the Rust's two flags: vertical edges, horizontal edges.
    pub fn plane_by(s: &Settings, marks: &Marks, qindex: &[u16], plane: &[u16], flags: (bool, bool)) -> Vec<u16> {
        let mut floats = to_floats(plane);
        let vertical: Vec<bool> = marks.vertical.iter().map(|&m| m == 1).collect();
        let horizontal: Vec<bool> = marks.horizontal.iter().map(|&m| m == 1).collect();
        let layout = TxLayout {
            mi_cols: s.cells.0,
            mi_rows: s.cells.1,
            vedge: &vertical,
            hedge: &horizontal,
            sq_w: &marks.width,
            sq_h: &marks.height,
            qindex,
        };
        let mut config = PlaneCfg {
            buf: &mut floats,
            stride: s.stride,
            width: s.size.0,
            height: s.size.1,
            is_chroma: s.chroma,
            bit_depth: s.depth as u32,
            delta_q: s.delta_q as i32,
            delta_side: s.delta_side as i32,
            sb_mi_w: s.superblock.0,
            sb_mi_h: s.superblock.1,
        };
        deblock_plane(&mut config, &layout, flags.0, flags.1);
        to_samples(&floats)
    }

    /// An edge of a plane as the Rust is asked for it: q0 of line 0, across the edge and from line to line, the smaller size index within the border, whether the pair is shortened, and both blocks' qindex.
    pub struct Joint {
        pub base: usize,
        pub perp: usize,
        pub line: usize,
        pub index: u8,
        pub shortened: bool,
        pub qindex: (u16, u16),
    }

    /// A plane on which edges are run one after the other by the Rust's ladder, thresholds and segment, as `deblock_plane` joins them.
    pub struct Run<'a> {
        settings: &'a Settings,
        floats: Vec<f32>,
        /// Which samples lie in kept cells.
        kept: Vec<bool>,
    }

    impl Run<'_> {
        pub fn new<'a>(settings: &'a Settings, plane: &[u16], kept: Vec<bool>) -> Run<'a> {
            Run { settings, floats: to_floats(plane), kept }
        }

        /// One edge; a kept sample is read like any other, and ends as it was.
        pub fn edge(&mut self, e: &Joint) {
            let s = self.settings;
            let (before, after) = filter_lengths(e.index as i32, s.chroma, e.shortened);
            let (q, side) = thresholds(e.qindex.0 as i64, e.qindex.1 as i64, s.delta_q, s.delta_side, s.depth);
            let at = Span { base: e.base, perp: e.perp, line: e.line, lengths: (before as i64, after as i64) };
            let lent: Vec<(usize, f32)> = at.places(self.floats.len()).into_iter().filter(|&p| self.kept[p]).map(|p| (p, self.floats[p])).collect();
            run_segment(&mut self.floats, &at, q, side, s.depth);
            lent.into_iter().for_each(|(place, sample)| self.floats[place] = sample);
        }

        pub fn end(self) -> Vec<u16> {
            to_samples(&self.floats)
        }
    }

    /// A frame's settings and what it reads.
    pub struct Frame<'a> {
        pub size: (usize, usize),
        pub sub: (usize, usize),
        pub chroma: (bool, bool),
        pub depth: u64,
        pub deltas: (i64, i64),
        pub strides: (usize, usize),
        pub cap: (usize, usize),
        pub chroma_cap: (usize, usize),
        pub entries: &'a [u16],
        pub leaves: &'a [Leaf],
        pub chroma_leaves: &'a [Leaf],
        pub skips: &'a [Leaf],
    }

    /// The three planes after the Rust deblocked a frame.
    pub fn frame(f: &Frame, planes: &[Vec<u16>; 3]) -> [Vec<u16>; 3] {
        frame_by(f, f.size.0.div_ceil(64), planes)
    }

    /// The same with as many superblocks across as the caller says.
    pub fn frame_by(f: &Frame, sb_cols: usize, planes: &[Vec<u16>; 3]) -> [Vec<u16>; 3] {
        let mut y = to_floats(&planes[0]);
        let mut u = to_floats(&planes[1]);
        let mut v = to_floats(&planes[2]);
        deblock_frame(FrameDeblock {
            recy: &mut y,
            recu: &mut u,
            recv: &mut v,
            luma_stride: f.strides.0,
            chroma_stride: f.strides.1,
            width: f.size.0,
            height: f.size.1,
            ssx: f.sub.0,
            ssy: f.sub.1,
            has_chroma: f.chroma.0,
            chroma_deblock: f.chroma.1,
            bit_depth: f.depth as u32,
            delta_y: f.deltas.0 as i32,
            delta_uv: f.deltas.1 as i32,
            base_q: 7,
            sb_cols,
            sb_qidx: f.entries,
            leaves: f.leaves,
            chroma_leaves: f.chroma_leaves,
            skip_leaves: f.skips,
            luma_tx_cap: f.cap,
            chroma_tx_cap: f.chroma_cap,
        });
        [to_samples(&y), to_samples(&u), to_samples(&v)]
    }
}

pub mod ccso {
    include!(concat!(env!("MAROONTREE"), "/src/av2/ccso.rs"));

    use super::{to_floats, to_samples};

    /// How many samples the Rust replicates beyond each border.
    pub const BORDER: i64 = PAD as i64;

    /// A choice among the Rust's own settings.
    pub struct Choice {
        pub scale: u8,
        pub quantizer: u8,
        pub support: u8,
        pub classifier: u8,
        pub bands: u8,
    }

    impl Choice {
        pub fn scale(&self) -> i64 {
            CCSO_SCALE[self.scale as usize] as i64
        }

        /// The quantizer step, the cut on both sides of 0.
        pub fn cut(&self) -> i64 {
            QUANT_SZ[self.scale as usize][self.quantizer as usize] as i64
        }

        pub fn taps(&self) -> [(i64, i64); 2] {
            tap_offsets(self.support).map(|(dx, dy)| (dx as i64, dy as i64))
        }
    }

    /// The picture that the offsets are applied over.
    pub struct Picture<'a> {
        pub luma: &'a [u16],
        pub size: (usize, usize),
        pub sub: (usize, usize),
        pub depth: u64,
    }

    /// The target after the Rust applied the offsets to the flagged blocks.
    pub fn apply(picture: &Picture, choice: &Choice, target: &[u16], flags: &[u8], offsets: &[i64]) -> Vec<u16> {
        let (width, height) = picture.size;
        let (extended, stride) = extend_luma(&to_floats(picture.luma), width, height);
        let geometry = CcsoGeometry {
            extended_luma: &extended,
            extended_stride: stride,
            width: (width + picture.sub.0) >> picture.sub.0,
            height: (height + picture.sub.1) >> picture.sub.1,
            horizontal_subsampling: picture.sub.0,
            vertical_subsampling: picture.sub.1,
            bit_depth: picture.depth as u32,
        };
        let result = CcsoEdgeResult {
            scale_idx: choice.scale,
            quant_idx: choice.quantizer,
            ext_filter_support: choice.support,
            edge_clf: choice.classifier,
            max_band_log2: choice.bands,
            offsets: offsets.iter().map(|&o| o as i32).collect(),
        };
        let mut floats = to_floats(target);
        let grid = CcsoGrid { flags, sb_cols: width.div_ceil(64) };
        apply_edge_gated(&geometry, &mut floats, &result, &grid);
        to_samples(&floats)
    }
}
