//! The functions of include/bihargesh.h as they are linked, and its record of a leaf: a list is a pointer and the number of its entries.

/// A leaf: row, column, width and height, in luma cells; 4096 added to the width keeps it whole.
#[repr(C)]
#[derive(Clone, Copy, Debug, Default, PartialEq, Eq)]
pub struct Leaf {
    pub row: u16,
    pub col: u16,
    pub w: u16,
    pub h: u16,
}

/// Both functions that filter a plane: what they take, and their answer.
pub type Engine = unsafe extern "C" fn(
    *mut u16, usize, *const u8, usize, *const u8, usize, *const u8, usize, *const u8, usize, *const u16, usize,
    *const u16, usize, *const u8, usize, *const u32, usize, *const i32, usize, *mut usize, usize, *mut usize, usize,
) -> i32;

#[link(name = "bihargesh", kind = "static")]
extern "C" {
    pub fn bihargesh_steps(steps: *mut u32, steps_len: usize) -> i32;
    pub fn bihargesh_thresholds(curr: u16, prev: u16, delta_q: i32, delta_side: i32, depth: u32, steps: *const u8, steps_len: usize) -> i32;
    pub fn bihargesh_segment(window: *mut u8, window_len: usize, depth: u32, pair: u32, q: u32, side: u32, counts: *mut usize, counts_len: usize) -> i32;
    pub fn bihargesh_plane(
        plane: *mut u16, plane_len: usize, vedge: *const u8, vedge_len: usize, hedge: *const u8, hedge_len: usize,
        sqw: *const u8, sqw_len: usize, sqh: *const u8, sqh_len: usize, qindex: *const u16, qindex_len: usize,
        tiles: *const u16, tiles_len: usize, keep: *const u8, keep_len: usize, steps: *const u32, steps_len: usize,
        settings: *const i32, settings_len: usize, place: *mut usize, place_len: usize, counts: *mut usize, counts_len: usize,
    ) -> i32;
    pub fn bihargesh_plane_plain(
        plane: *mut u16, plane_len: usize, vedge: *const u8, vedge_len: usize, hedge: *const u8, hedge_len: usize,
        sqw: *const u8, sqw_len: usize, sqh: *const u8, sqh_len: usize, qindex: *const u16, qindex_len: usize,
        tiles: *const u16, tiles_len: usize, keep: *const u8, keep_len: usize, steps: *const u32, steps_len: usize,
        settings: *const i32, settings_len: usize, place: *mut usize, place_len: usize, counts: *mut usize, counts_len: usize,
    ) -> i32;
    pub fn bihargesh_record_plane(
        plane: *mut u16, plane_len: usize, record: *mut u8, record_len: usize, vedge: *const u8, vedge_len: usize, hedge: *const u8, hedge_len: usize,
        sqw: *const u8, sqw_len: usize, sqh: *const u8, sqh_len: usize, qindex: *const u16, qindex_len: usize,
        tiles: *const u16, tiles_len: usize, keep: *const u8, keep_len: usize, steps: *const u32, steps_len: usize,
        settings: *const i32, settings_len: usize, place: *mut usize, place_len: usize, counts: *mut usize, counts_len: usize,
    ) -> i32;
    pub fn bihargesh_rows(
        plane: *mut u16, plane_len: usize, vedge: *const u8, vedge_len: usize, hedge: *const u8, hedge_len: usize,
        sqw: *const u8, sqw_len: usize, sqh: *const u8, sqh_len: usize, qindex: *const u16, qindex_len: usize,
        tiles: *const u16, tiles_len: usize, keep: *const u8, keep_len: usize, steps: *const u32, steps_len: usize,
        settings: *const i32, settings_len: usize, filled: usize, state: *mut usize, state_len: usize, place: *mut usize, place_len: usize,
        counts: *mut usize, counts_len: usize,
    ) -> i32;
    pub fn bihargesh_replay(
        plane: *mut u16, plane_len: usize, record: *const u8, record_len: usize, keep: *const u8, keep_len: usize,
        settings: *const i32, settings_len: usize, place: *mut usize, place_len: usize,
        counts: *mut usize, counts_len: usize,
    ) -> i32;
    pub fn bihargesh_tx_grid(
        leaves: *const u16, leaves_len: usize, skips: *const u16, skips_len: usize, vedge: *mut u8, vedge_len: usize,
        hedge: *mut u8, hedge_len: usize, sqw: *mut u8, sqw_len: usize, sqh: *mut u8, sqh_len: usize,
        keep: *mut u8, keep_len: usize, settings: *const i32, settings_len: usize, place: *mut usize, place_len: usize,
    ) -> i32;
    pub fn bihargesh_tx_grid_leaves(
        leaves: *const Leaf, leaves_len: usize, skips: *const Leaf, skips_len: usize, vedge: *mut u8, vedge_len: usize,
        hedge: *mut u8, hedge_len: usize, sqw: *mut u8, sqw_len: usize, sqh: *mut u8, sqh_len: usize,
        keep: *mut u8, keep_len: usize, settings: *const i32, settings_len: usize, place: *mut usize, place_len: usize,
    ) -> i32;
    pub fn bihargesh_keep_rectangle(keep: *mut u8, keep_len: usize, settings: *const i32, settings_len: usize, place: *mut usize, place_len: usize) -> i32;
    pub fn bihargesh_qindex_grid(
        superblocks: *const u16, superblocks_len: usize, qindex: *mut u16, qindex_len: usize,
        settings: *const i32, settings_len: usize, place: *mut usize, place_len: usize,
    ) -> i32;
    pub fn bihargesh_frame(
        y: *mut u16, y_len: usize, u: *mut u16, u_len: usize, v: *mut u16, v_len: usize,
        luma_vedge: *mut u8, luma_vedge_len: usize, luma_hedge: *mut u8, luma_hedge_len: usize,
        luma_sqw: *mut u8, luma_sqw_len: usize, luma_sqh: *mut u8, luma_sqh_len: usize, luma_qindex: *mut u16, luma_qindex_len: usize,
        chroma_vedge: *mut u8, chroma_vedge_len: usize, chroma_hedge: *mut u8, chroma_hedge_len: usize,
        chroma_sqw: *mut u8, chroma_sqw_len: usize, chroma_sqh: *mut u8, chroma_sqh_len: usize, chroma_qindex: *mut u16, chroma_qindex_len: usize,
        steps: *const u32, steps_len: usize, superblocks: *const u16, superblocks_len: usize, leaves: *const u16, leaves_len: usize,
        chroma_leaves: *const u16, chroma_leaves_len: usize, skips: *const u16, skips_len: usize,
        tiles: *const u16, tiles_len: usize, chroma_tiles: *const u16, chroma_tiles_len: usize,
        keep: *const u8, keep_len: usize, chroma_keep: *const u8, chroma_keep_len: usize,
        settings: *const i32, settings_len: usize, place: *mut usize, place_len: usize,
        counts: *mut usize, counts_len: usize,
    ) -> i32;
    pub fn bihargesh_ccso(
        luma: *const u16, luma_len: usize, target: *mut u16, target_len: usize, flags: *const u8, flags_len: usize,
        offsets: *const i8, offsets_len: usize, settings: *const i32, settings_len: usize, place: *mut usize, place_len: usize,
    ) -> i32;
}
