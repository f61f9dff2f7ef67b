//! How a plane is filtered from Rust: its grids are built from one leaf and one superblock, then its edges are filtered; and again with a rectangle kept.

use bihargesh::{build_qindex_grid, build_tx_grid, deblock_plane, keep_rectangle, Grid, Marks, Plane, QindexGrid, Reason, Rectangle, Refusal, TxGrid};

const COLS: usize = 8;
const ROWS: usize = 8;
const STRIDE: usize = 4 * COLS;

/// The plane's settings: luma of 8 by 8 cells at depth 8.
fn settings() -> Plane {
    Plane {
        cols: COLS as i32,
        rows: ROWS as i32,
        stride: STRIDE as i32,
        width: STRIDE as i32,
        height: 4 * ROWS as i32,
        superblock_width: 16,
        superblock_height: 16,
        depth: 8,
        ..Plane::default()
    }
}

fn main() {
    // one leaf of 8 by 8 cells, cut into TUs of 4 by 4 cells
    let [mut vedge, mut hedge, mut sqw, mut sqh, mut keep] = [[0u8; COLS * ROWS]; 5];
    let leaves = [0, 0, 8, 8];
    let marks = Marks { vedge: &mut vedge, hedge: &mut hedge, sqw: &mut sqw, sqh: &mut sqh };
    let tx = TxGrid { cols: COLS as i32, rows: ROWS as i32, cap_width: 4, cap_height: 4, ..TxGrid::default() };
    assert_eq!(build_tx_grid(&leaves, &[], marks, &mut keep, tx), Ok(()));

    // one superblock, of qindex 200
    let mut qindex = [0u16; COLS * ROWS];
    let superblocks = QindexGrid { cols: COLS as i32, rows: ROWS as i32, superblocks_across: 1, ..QindexGrid::default() };
    assert_eq!(build_qindex_grid(&[200], &mut qindex, superblocks), Ok(()));

    // 100 in the left half, 108 in the right
    let halves: Vec<u16> = (0..STRIDE * 4 * ROWS).map(|k| if k % STRIDE < STRIDE / 2 { 100 } else { 108 }).collect();
    let mut plane = halves.clone();
    let steps = bihargesh::steps();
    let grid = Grid { vedge: &vedge, hedge: &hedge, sqw: &sqw, sqh: &sqh, qindex: &qindex, tiles: &[], keep: &keep };
    let counts = deblock_plane(&mut plane, grid, &steps, settings()).expect("the plane was refused");
    let row = &plane[..STRIDE];
    println!("Rust, a plane: {:?}; {} samples stored, {} of them changed", &row[8..24], counts.stored, counts.changed);
    assert!(0 < counts.changed && counts.changed <= counts.stored, "the counts are bad");
    assert!(row.windows(2).all(|w| w[0] <= w[1]), "the step became no ramp");
    assert!(row[15] > 100 && row[16] < 108, "the edge was not filtered");

    // the same with the right half kept: its samples are read and stay, and the left half is filtered as before
    let mut right = keep;
    assert_eq!(keep_rectangle(&mut right, Rectangle { cols: COLS as i32, rows: ROWS as i32, row: 0, col: 4, height: ROWS as i32, width: 4 }), Ok(()));
    let mut half = halves.clone();
    let fewer = deblock_plane(&mut half, Grid { keep: &right, ..grid }, &steps, settings()).expect("the plane with kept cells was refused");
    println!("Rust, its right half kept: {:?}; {} samples stored, {} of them changed", &half[8..24], fewer.stored, fewer.changed);
    assert!((0..half.len()).all(|k| half[k] == if k % STRIDE < STRIDE / 2 { plane[k] } else { 108 }) && fewer.stored < counts.stored, "a kept cell was filtered");

    // a sample that is too large is refused with its place, and the plane stays as it was
    plane[70] = 256;
    let lent = plane.clone();
    assert_eq!(deblock_plane(&mut plane, grid, &steps, settings()), Err(Refusal { reason: Reason::Sample, place: 70 }));
    assert_eq!(plane, lent);
}
