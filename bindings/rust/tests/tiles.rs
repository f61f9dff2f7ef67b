//! Tile starts from Rust: which edges they shorten, which lists are refused, and that a frame's lists are its planes'.

use bihargesh::{deblock_frame, deblock_plane, record_plane, segment, Blocks, BuiltGrid, Counts, Frame, Grid, Marks, Plane, Planes, Reason, Refusal};

/// Steps that give q 8 from entry 1 on, and the qindex whose side threshold at depth 8 is 40.
fn steps() -> ([u32; 352], u16) {
    let mut steps = [4092u32; 352];
    steps[0] = 64;
    let bytes: Vec<u8> = steps.iter().flat_map(|s| s.to_le_bytes()).collect();
    let index = (0..352).find(|&k| bihargesh::thresholds(k, k, 0, 0, 8, &bytes).unwrap().side == 40);
    (steps, index.expect("no side of 40"))
}

/// A row of six cells with one vertical edge, 100 before it and 108 after it.
struct Row {
    column: usize,
    index: u8,
    chroma: bool,
    room: usize,
}

/// The edge that document 01's figures are of: lengths 18,18.
const WIDE: Row = Row { column: 2, index: 3, chroma: false, room: 16 };

impl Row {
    /// What a run answers, the plane and the record afterwards; the plane alone and the one with a record are the same.
    fn run(&self, tiles: &[u16]) -> (Result<Counts, Refusal>, Vec<u16>, Vec<u8>) {
        let (steps, index) = steps();
        let mut vedge = [0; 6];
        vedge[self.column] = 1;
        let grid = Grid { vedge: &vedge, hedge: &[0; 6], sqw: &[self.index; 6], sqh: &[self.index; 6], qindex: &[index; 6], tiles, keep: &[0; 6] };
        let settings = Plane { cols: 6, rows: 1, stride: 24, width: 24, height: 4, superblock_width: 16, superblock_height: 16, chroma: self.chroma, depth: 8, ..Plane::default() };
        let lent: Vec<u16> = (0..96).map(|k| if k % 24 < 4 * self.column { 100 } else { 108 }).collect();
        let (mut plane, mut with_record, mut record) = (lent.clone(), lent, vec![9; self.room]);
        let answer = deblock_plane(&mut plane, grid, &steps, settings);
        assert_eq!(record_plane(&mut with_record, &mut record, grid, &steps, settings).map(|(_, counts)| counts), answer);
        assert_eq!(with_record, plane);
        (answer, plane, record)
    }
}

const REFUSED: Result<Counts, Refusal> = Err(Refusal { reason: Reason::Setting, place: 0 });

#[test]
fn one_tile() {
    let (answer, plane, record) = WIDE.run(&[]);
    assert_eq!(answer, Ok(Counts { stored: 64, changed: 56 }));
    assert_eq!(plane[..18], [100, 101, 101, 102, 102, 103, 103, 104, 104, 105, 105, 106, 106, 107, 107, 108, 108, 108]);
    assert_eq!(WIDE.run(&[1, 3, 4, 5]), (answer, plane, record), "tiles where no edge is marked");
}

#[test]
fn a_tile_shortens() {
    let (answer, plane, record) = WIDE.run(&[2]);
    assert_eq!(answer, Ok(Counts { stored: 56, changed: 52 }));
    assert_eq!(plane[..18], [100, 100, 101, 101, 102, 103, 103, 104, 104, 105, 105, 106, 106, 107, 107, 108, 108, 108]);
    assert_eq!(record[10], 4, "the pair 14,18");
}

#[test]
fn bad_lists() {
    let (_, lent, record) = Row { room: 0, ..WIDE }.run(&[0]);
    for tiles in [&[0][..], &[6], &[65535], &[2, 2], &[3, 2], &[0, 2], &[1, 2, 6], &[1, 2, 3, 4, 5, 5]] {
        assert_eq!(Row { room: 0, ..WIDE }.run(tiles), (REFUSED, lent.clone(), record.clone()), "{tiles:?}");
    }
    assert!(lent[..24].iter().enumerate().all(|(x, &v)| v == if x < 8 { 100 } else { 108 }), "a refusal changed the plane");
}

/// In chroma, at column 1, only the shortened pair has room.
#[test]
fn room_of_the_pair() {
    for index in 2..=6 {
        let row = Row { column: 1, index, chroma: true, room: 16 };
        assert_eq!(row.run(&[]).0, Err(Refusal { reason: Reason::Room, place: 1 }));
        let (answer, plane, record) = row.run(&[1]);
        let mut window: Vec<u8> = [[100u16; 9], [108; 9]].concat().repeat(4).iter().flat_map(|s| s.to_le_bytes()).collect();
        let (width, counts) = segment(&mut window, 8, 7, 8, 40).unwrap();
        assert_eq!((answer, width, record[10]), (Ok(counts), 4, 7));
        let line: Vec<u16> = window[10..36].chunks(2).map(|b| u16::from_le_bytes([b[0], b[1]])).collect();
        assert_eq!(plane[..13], line);
    }
}

/// No cell is kept.
const OPEN: [u8; 64] = [0; 64];

/// A grid that a frame builds.
struct Room {
    marks: [Vec<u8>; 4],
    qindex: Vec<u16>,
}

impl Room {
    fn of(cells: usize) -> Room {
        Room { marks: [0, 1, 2, 3].map(|_| vec![0; cells]), qindex: vec![0; cells] }
    }

    fn lent(&mut self) -> BuiltGrid<'_> {
        let [vedge, hedge, sqw, sqh] = &mut self.marks;
        BuiltGrid { marks: Marks { vedge, hedge, sqw, sqh }, qindex: &mut self.qindex }
    }

    fn grid<'a>(&'a self, tiles: &'a [u16]) -> Grid<'a> {
        let [vedge, hedge, sqw, sqh] = &self.marks;
        Grid { vedge, hedge, sqw, sqh, qindex: &self.qindex, tiles, keep: &OPEN }
    }
}

/// A plane whose left half is 100 and whose right half is 108.
fn halves(width: usize, height: usize) -> Vec<u16> {
    (0..width * height).map(|k| if k % width < width / 2 { 100 } else { 108 }).collect()
}

/// A frame of 64 by 16 samples in 4:2:0 with two leaves side by side: its answer, its planes and its grids.
fn frame(tiles: &[u16], chroma_tiles: &[u16], has_chroma: bool, chroma_deblock: bool) -> (Result<Counts, Refusal>, [Vec<u16>; 3], [Room; 2]) {
    let (steps, index) = steps();
    let (mut planes, mut grids) = ([halves(64, 16), halves(32, 8), halves(32, 8)], [Room::of(64), Room::of(16)]);
    let leaves = &[0, 0, 8, 4, 0, 8, 8, 4];
    let blocks = Blocks { superblocks: &[index], leaves, chroma_leaves: leaves, skips: &[], tiles, chroma_tiles, keep: &OPEN, chroma_keep: &OPEN };
    let settings = Frame {
        width: 64, height: 16, ssx: 1, ssy: 1, has_chroma, chroma_deblock, depth: 8, luma_stride: 64, chroma_stride: 32,
        cap_width: 16, cap_height: 16, chroma_cap_width: 16, chroma_cap_height: 16, ..Frame::default()
    };
    let ([y, u, v], [luma, chroma]) = (&mut planes, &mut grids);
    let answer = deblock_frame(Planes { y, u, v }, luma.lent(), chroma.lent(), &steps, blocks, settings);
    (answer, planes, grids)
}

/// A plane of that frame alone, by its grid.
fn alone(width: usize, height: usize, chroma: bool, grid: Grid) -> (Counts, Vec<u16>) {
    let (cols, rows, superblock) = (width as i32 / 4, height as i32 / 4, if chroma { 8 } else { 16 });
    let settings = Plane {
        cols, rows, stride: width as i32, width: width as i32, height: height as i32, superblock_width: superblock, superblock_height: superblock, chroma, depth: 8, ..Plane::default()
    };
    let mut plane = halves(width, height);
    let counts = deblock_plane(&mut plane, grid, &steps().0, settings).unwrap();
    (counts, plane)
}

#[test]
fn frames() {
    let (answer, planes, [luma, chroma]) = frame(&[8], &[4], true, true);
    let (y_counts, y) = alone(64, 16, false, luma.grid(&[8]));
    let (u_counts, u) = alone(32, 8, true, chroma.grid(&[4]));
    assert_eq!(planes, [y, u.clone(), u]);
    assert_eq!(answer, Ok(Counts { stored: y_counts.stored + 2 * u_counts.stored, changed: y_counts.changed + 2 * u_counts.changed }));

    let (_, one_tile, _) = frame(&[], &[], true, true);
    assert!((0..3).all(|k| one_tile[k] != planes[k]), "a tile start changes no sample");

    for (tiles, chroma_tiles) in [(&[16][..], &[4][..]), (&[0], &[]), (&[8, 8], &[]), (&[8], &[8]), (&[], &[5, 4])] {
        let (answer, planes, _) = frame(tiles, chroma_tiles, true, true);
        assert_eq!((answer, planes), (REFUSED, [halves(64, 16), halves(32, 8), halves(32, 8)]), "{tiles:?} {chroma_tiles:?}");
    }
    assert!(frame(&[8], &[8], false, true).0.is_ok() && frame(&[8], &[0], true, false).0.is_ok(), "chroma's list is tested where chroma is not filtered");
    assert_eq!(frame(&[16], &[], true, false).0, REFUSED);
}
