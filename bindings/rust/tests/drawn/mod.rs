//! Random planes with their grids, and faults in them.

use bihargesh::{Counts, Grid, Plane, Refusal};

/// splitmix64
pub struct Random(pub u64);

impl Random {
    pub fn below(&mut self, n: u64) -> u64 {
        self.0 = self.0.wrapping_add(0x9e37_79b9_7f4a_7c15);
        let mut z = self.0;
        z = (z ^ (z >> 30)).wrapping_mul(0xbf58_476d_1ce4_e5b9);
        z = (z ^ (z >> 27)).wrapping_mul(0x94d0_49bb_1331_11eb);
        (z ^ (z >> 31)) % n
    }

    pub fn one_of<T: Copy>(&mut self, list: &[T]) -> T {
        list[self.below(list.len() as u64) as usize]
    }
}

/// What an engine is lent.
pub struct Case {
    pub settings: Plane,
    pub marks: [Vec<u8>; 2],
    pub sizes: [Vec<u8>; 2],
    pub qindex: Vec<u16>,
    pub tiles: Vec<u16>,
    pub keep: Vec<u8>,
    pub plane: Vec<u16>,
}

impl Case {
    /// Blocks with steps between them and a little noise; marks are not asked whether they have room.
    pub fn drawn(r: &mut Random) -> Case {
        let (cols, rows, depth) = (1 + r.below(36), 1 + r.below(9), r.one_of(&[8, 8, 10, 12]));
        let (n, stride, often) = (cols * rows, 4 * cols + r.below(3), r.one_of(&[1, 2, 4, 9]));
        let settings = Plane {
            cols: cols as i32, rows: rows as i32, stride: stride as i32, width: 4 * cols as i32, height: 4 * rows as i32, superblock_width: r.one_of(&[8, 16]),
            superblock_height: r.one_of(&[8, 16]), chroma: r.below(2) == 1, depth, ..Plane::default()
        };
        // the outer two columns and rows have no edge most of the time, so that most planes have room
        let near = r.below(8) == 0;
        let inner = |at: u64, most: u64| near || (at > 1 && at + 2 < most);
        let mut marks = |across: bool| (0..n).map(|k| ((if across { inner(k % cols, cols) } else { inner(k / cols, rows) }) && r.below(often) == 0) as u8).collect();
        let marks = [marks(true), marks(false)];
        let most = r.one_of(&[2, 4, 7]);
        let mut sizes = || (0..n).map(|_| r.below(most) as u8).collect();
        let sizes = [sizes(), sizes()];
        let (step, noise, kept) = (r.below(9), 1 + r.below(4), r.one_of(&[0, 0, 1, 3]));
        Case {
            settings,
            marks,
            sizes,
            qindex: (0..n).map(|_| 120 + r.below(130) as u16).collect(),
            tiles: (1..cols as u16).filter(|_| r.below(6) == 0).collect(),
            keep: (0..n).map(|_| (r.below(4) < kept) as u8).collect(),
            plane: (0..stride * 4 * rows).map(|k| (40 + step * (k % stride / 8 % 11) + step * (k / stride / 8) + r.below(noise)) as u16).collect(),
        }
    }

    /// One fault, by the number of the refusal that it may lead to.
    pub fn damage(&mut self, r: &mut Random) {
        let cell = r.below(self.qindex.len() as u64) as usize;
        match r.below(10) {
            0 => self.settings.depth = 9,
            1 => self.settings.superblock_width = r.one_of(&[0, 1, 2, 7, 32]),
            2 => self.settings.stride += 1,
            3 => self.settings.delta_q = 128,
            4 => self.tiles.push(self.settings.cols as u16),
            5 => self.sizes[r.below(2) as usize][cell] = 7,
            6 => self.marks[r.below(2) as usize].fill(1),
            7 => self.keep[cell] = 2,
            8 => self.keep.truncate(cell),
            _ => self.plane[cell] = 4096,
        }
    }

    /// The grid as it is lent.
    pub fn grid(&self) -> Grid<'_> {
        let ([vedge, hedge], [sqw, sqh]) = (&self.marks, &self.sizes);
        Grid { vedge, hedge, sqw, sqh, qindex: &self.qindex, tiles: &self.tiles, keep: &self.keep }
    }

    /// An engine's answer, and the plane afterwards.
    pub fn run(&self, engine: fn(&mut [u16], Grid, &[u32], Plane) -> Result<Counts, Refusal>) -> (Result<Counts, Refusal>, Vec<u16>) {
        let mut plane = self.plane.clone();
        (engine(&mut plane, self.grid(), &bihargesh::steps(), self.settings), plane)
    }
}
