//! How a whole frame is filtered from Rust: 64x64 luma with 4:2:0 chroma, one leaf of 16 by 16 cells cut into TUs of 4 by 4.

use bihargesh::{deblock_frame, Blocks, BuiltGrid, Frame, Marks, Planes, Refusal};

const SIZE: usize = 64;
const CHROMA: usize = SIZE / 2;

/// A plane of n by n samples: 100 in its left half, 108 in its right.
fn halves(n: usize) -> Vec<u16> {
    (0..n * n).map(|k| if k % n < n / 2 { 100 } else { 108 }).collect()
}

/// Room for a grid.
struct Room {
    marks: [Vec<u8>; 4],
    qindex: Vec<u16>,
}

impl Room {
    fn of(cells: usize) -> Room {
        Room { marks: [0, 1, 2, 3].map(|_| vec![0; cells]), qindex: vec![0; cells] }
    }

    fn lent(&mut self) -> BuiltGrid<'_> {
        let [vedge, hedge, sqw, sqh] = &mut self.marks;
        BuiltGrid { marks: Marks { vedge, hedge, sqw, sqh }, qindex: &mut self.qindex }
    }
}

fn main() -> Result<(), Refusal> {
    let (mut y, mut u, mut v) = (halves(SIZE), halves(CHROMA), halves(CHROMA));
    let (mut luma, mut chroma) = (Room::of(16 * 16), Room::of(8 * 8));
    let leaves = &[0, 0, 16, 16];
    let blocks = Blocks { superblocks: &[200], leaves, chroma_leaves: leaves, skips: &[], tiles: &[], chroma_tiles: &[], keep: &[0; 16 * 16], chroma_keep: &[0; 8 * 8] };
    let settings = Frame {
        width: SIZE as i32,
        height: SIZE as i32,
        ssx: 1,
        ssy: 1,
        has_chroma: true,
        chroma_deblock: true,
        depth: 8,
        luma_stride: SIZE as i32,
        chroma_stride: CHROMA as i32,
        cap_width: 4,
        cap_height: 4,
        chroma_cap_width: 4,
        chroma_cap_height: 4,
        ..Frame::default()
    };
    let counts = deblock_frame(Planes { y: &mut y, u: &mut u, v: &mut v }, luma.lent(), chroma.lent(), &bihargesh::steps(), blocks, settings)?;
    println!("Rust, a frame: luma {:?}, u {:?}; {} samples stored, {} of them changed", &y[SIZE / 2 - 4..SIZE / 2 + 4], &u[CHROMA / 2 - 4..CHROMA / 2 + 4], counts.stored, counts.changed);
    assert!(0 < counts.changed && counts.changed <= counts.stored, "the counts are bad");
    assert!(y[SIZE / 2 - 1] > 100 && v[CHROMA / 2] < 108, "the edges were not filtered");
    Ok(())
}
