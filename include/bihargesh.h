/* Bihargesh, the proved AV2 loop filters: what C may call. The functions stand in the static library libbihargesh.a.
 *
 * Each function takes any numbers and lists of any length. A list is a pointer and the number of its entries; the pointer must lead
 * to that many, a list that is not const overlaps no other, and an empty list may be NULL.
 * A function does its work, or answers minus the number of a refusal and leaves all lent memory as it was, but for two lists: `place`, where
 * the place of the refusal goes, and `counts`, where zeros go (a frame refused by 7 or 8 has built its grids too, and 8 spends the state of bihargesh_rows).
 * Where several refusals hold, the answer is the first in the order 15, 1, 2, 3, 4, 5, 9, 11, 12, 13, 6, 7, 14, 8, 10; enum bihargesh_refusal names them.
 *
 * The functions with a list `place` put the place of a refusal into its first entry, if it has one: the first bad step, cell, leaf,
 * entry of a record or sample, counted from 0, and 0 for a refusal that has no place. `place` is left as lent where the answer is no refusal.
 * The functions with a list `counts`, those that deblock, put into its first entry how many samples they stored and into its second how many of
 * these stores gave a place another sample than it had, as many of the two as it has entries: 0 and 0 for a refusal. A sample that several edges
 * store counts at each, and one of a kept cell at none. Of n edges stored is at most 64 n, and changed at most stored.
 * The functions with a list `keep` take a mark for each cell of a plane, row by row: 1 keeps the cell, so that its samples are read as all others and
 * never stored, and 0 does not. The list is always asked for (3 where it has fewer than cols*rows entries); cols*rows zeros keep no cell.
 * The functions with a list `settings` take their settings as numbers in a fixed order, named by an enum with each; numbers beyond those
 * are not looked at, and a list with fewer is refused by 3 before all else (in bihargesh_rows after 15), since nothing else can be read. A number
 * below 0 where a count stands is out of its range.
 */
#ifndef BIHARGESH_H
#define BIHARGESH_H

#include <stddef.h>
#include <stdint.h>

#ifdef __cplusplus
extern "C" {
#endif

#define BIHARGESH_VERSION "4.1.0"

/* Why a call is refused; the answer is minus this. */
enum bihargesh_refusal {
  BIHARGESH_BAD_DEPTH = 1,   /* the depth is not 8, 10 or 12 */
  BIHARGESH_BAD_SIZE = 2,    /* a size, stride, subsampling or count is out of range */
  BIHARGESH_BAD_LENGTH = 3,  /* a list other than the step table, keep marks too, is shorter than needed, or a list of leaves is cut */
  BIHARGESH_BAD_STEPS = 4,   /* the step table is not 352 entries from 64 on, each at most 1048576 */
  BIHARGESH_BAD_SETTING = 5, /* a delta, cap, threshold, length pair, tile start or CCSO setting is out of range */
  BIHARGESH_BAD_CELL = 6,    /* a grid cell has a mark or keep mark other than 0 and 1, or a bad size index */
  BIHARGESH_NO_ROOM = 7,     /* an edge lacks room */
  BIHARGESH_BAD_SAMPLE = 8,  /* a used sample exceeds 2^depth - 1 */
  BIHARGESH_BAD_LEAF = 9,    /* a leaf is bad */
  BIHARGESH_SHORT_BUFFER = 10, /* the buffer has less room than the record of a plane's marked edges takes */
  BIHARGESH_BAD_HEADER = 11, /* a record has fewer than five bytes, or another mark or version */
  BIHARGESH_CUT_ENTRY = 12,  /* a record ends within an entry */
  BIHARGESH_BAD_ENTRY = 13,  /* an entry's direction, length pair, q or side is out of range */
  BIHARGESH_BAD_ROWS = 14,   /* a count of filled rows, held or new, exceeds the plane or is no multiple of 4, or the new one is below the held */
  BIHARGESH_SPENT_STATE = 15 /* an earlier call on filled rows met a bad sample */
};

/* Fills a list with the 352 AC steps of the published encoder, for `steps` below, and answers 0: 64, then 24 steps an octave, and from
 * entry 255 on the same. Entries from 352 on are kept. Refusal 3. */
int32_t bihargesh_steps(uint32_t *steps, size_t steps_len);

/* Both thresholds of the edge between two blocks, as q * 65536 + side.
 * curr and prev are the qindex of the block after and before the edge, delta_q and delta_side are -128..127,
 * steps is the table of 352 AC steps, four bytes a step, low first (1,408 bytes; 4 if not). Refusals 1, 4, 5, in this order. */
int32_t bihargesh_thresholds(uint16_t curr, uint16_t prev, int32_t delta_q, int32_t delta_side, uint32_t depth,
                             const uint8_t *steps, size_t steps_len);

/* Filters one segment in place and answers how many samples after the edge were filtered: 0, 1, 2, 3, 4, 6 or 8.
 * window is four lines of eighteen samples, each p8..p0 then q0..q8, two bytes a sample, low first (144 bytes; 3 if not);
 * pair is 0..7, q 0..2048, side 0..839. Only samples within the widths change; a window has no keep marks. Refusals 1, 3, 5, 8, in this order. */
int32_t bihargesh_segment(uint8_t *window, size_t window_len, uint32_t depth, uint32_t pair, uint32_t q, uint32_t side,
                          size_t *counts, size_t counts_len);

/* Where a plane's settings stand. */
enum bihargesh_plane_setting {
  BIHARGESH_PLANE_COLS,
  BIHARGESH_PLANE_ROWS,
  BIHARGESH_PLANE_STRIDE,
  BIHARGESH_PLANE_WIDTH,
  BIHARGESH_PLANE_HEIGHT,
  BIHARGESH_PLANE_SB_WIDTH,
  BIHARGESH_PLANE_SB_HEIGHT,
  BIHARGESH_PLANE_CHROMA,
  BIHARGESH_PLANE_DEPTH,
  BIHARGESH_PLANE_DELTA_Q,
  BIHARGESH_PLANE_DELTA_SIDE,
  BIHARGESH_PLANE_SETTINGS /* how many there are; so in the enums below */
};

/* Filters every marked edge of a plane, in document 01's order, and answers 0.
 * plane has rows of stride samples. The grid has a number for each cell of 4x4 samples, row by row: vedge and hedge mark (0 or 1) an
 * edge at the cell's left and upper side, sqw and sqh are the size indices 0..6 of its block, qindex is its block's.
 * tiles has the column of cells in which each tile but the first begins, strictly rising, each above 0 and below cols (5 if not). The vertical edges
 * in these columns have the shortened pair of lengths, as the horizontal ones in the first row of a superblock have; an empty list is one tile.
 * An edge's room is that of the pair which it has: in chroma a shortened one has room at column 1 where the other has none.
 * keep marks (0 or 1) the cells whose samples are never stored. An edge reads them as all others: how far it filters and by how much is what it would be
 * if no cell were kept, and only the stores into kept cells are left out. So a kept cell does not keep its neighbours.
 * steps is the table of 352 AC steps. Only samples of 4*cols by 4*rows change, and of those none of a kept cell.
 * settings, eleven numbers: cols and rows (cells each way, 1..1024), stride (4*cols..8192), width (1..4*cols) and height (1..4*rows)
 * of the border test, superblock width and height in cells (8 or 16), chroma (0 or 1; 2 if not), depth, delta_q and delta_side
 * (-128..127). Refusals 1, 2, 3, 4, 5, 6, 7, 8, in this order. */
int32_t bihargesh_plane(uint16_t *plane, size_t plane_len, const uint8_t *vedge, size_t vedge_len, const uint8_t *hedge, size_t hedge_len,
                        const uint8_t *sqw, size_t sqw_len, const uint8_t *sqh, size_t sqh_len, const uint16_t *qindex, size_t qindex_len,
                        const uint16_t *tiles, size_t tiles_len, const uint8_t *keep, size_t keep_len, const uint32_t *steps, size_t steps_len,
                        const int32_t *settings, size_t settings_len, size_t *place, size_t place_len, size_t *counts, size_t counts_len);

/* Filters a plane as bihargesh_plane does, in an order that can be audited by eye: all vertical edges, rows in order, and then all horizontal edges,
 * columns in order, where bihargesh_plane goes by columns of superblocks. It takes what bihargesh_plane takes and always answers as that does, refusals
 * included: the same number, place, counts and plane. (That rests on superblocks of 8 or 16 cells across; with one cell samples would differ.) */
int32_t bihargesh_plane_plain(uint16_t *plane, size_t plane_len, const uint8_t *vedge, size_t vedge_len, const uint8_t *hedge, size_t hedge_len,
                              const uint8_t *sqw, size_t sqw_len, const uint8_t *sqh, size_t sqh_len, const uint16_t *qindex, size_t qindex_len,
                              const uint16_t *tiles, size_t tiles_len, const uint8_t *keep, size_t keep_len, const uint32_t *steps, size_t steps_len,
                              const int32_t *settings, size_t settings_len, size_t *place, size_t place_len, size_t *counts, size_t counts_len);

/* Filters a plane as bihargesh_plane does, writes a record of every edge into the beginning of `record`, and answers the record's length in bytes.
 * The record: the three bytes `EDG`, the version 1 in two bytes, and ten bytes for each marked edge in the order in which they are filtered: x and y
 * (two bytes each, of the first sample after the edge), direction (one byte, 0 for vedge and 1 for hedge), number of the length pair (one byte, 0..7),
 * q and side (two bytes each), low byte first. An edge that filters nothing is in it too; column 0 has no vertical edge and row 0 no horizontal one.
 * An edge at kept cells is in it as any other: the record says nothing of keep marks, and is run again with the same ones.
 * Bytes after the record stay. 5 + 20 * cols * rows bytes are always enough. The grid, tiles, keep, steps and settings are bihargesh_plane's.
 * Refusals 1, 2, 3, 4, 5, 6, 7, 8, 10, in this order; each leaves the plane and `record` as lent. A short `record` is refused by 10 and never by 3. */
int32_t bihargesh_record_plane(uint16_t *plane, size_t plane_len, uint8_t *record, size_t record_len,
                               const uint8_t *vedge, size_t vedge_len, const uint8_t *hedge, size_t hedge_len,
                               const uint8_t *sqw, size_t sqw_len, const uint8_t *sqh, size_t sqh_len, const uint16_t *qindex, size_t qindex_len,
                               const uint16_t *tiles, size_t tiles_len, const uint8_t *keep, size_t keep_len, const uint32_t *steps, size_t steps_len,
                               const int32_t *settings, size_t settings_len, size_t *place, size_t place_len, size_t *counts, size_t counts_len);

/* Where the state of bihargesh_rows stands between two calls. */
enum bihargesh_rows_state {
  BIHARGESH_ROWS_HELD,  /* how many rows the last accepted call was told are filled */
  BIHARGESH_ROWS_SPENT, /* not 0 where a bad sample has spent the state */
  BIHARGESH_ROWS_STATE
};

/* Filters what can be filtered of a plane whose rows come one after the other, and answers how many rows from the top are final: no later call changes them.
 * `filled` says how many rows of the lent plane are filled now, a multiple of 4 that is not below the last call's. Every vertical edge in these rows is done,
 * and every horizontal edge with y + 8 <= filled; the answer is filled - 12, or 0 where that is below 0. With filled = 4*rows, full height, all is done and the
 * answer is 4*rows. Rows that are not filled are neither read nor written, and may hold anything.
 * state, two numbers: zeros before the first call, and then what the last call left there; entries beyond them stay. Lend the same grid, tiles, keep, steps and settings each time, and
 * leave filled rows as they are: then any cutting into calls leaves the plane of bihargesh_plane, and the counts of the calls add up to its counts.
 * The grid, tiles, keep, steps and settings are bihargesh_plane's, and are tested at each call. Only newly filled rows are tested for 8; where that refuses,
 * the state is spent (its second number is 1 then) and each further call is refused by 15. Every other refusal leaves the state as lent.
 * Refusals 15, 1, 2, 3, 4, 5, 6, 7, 14, 8, in this order; a state of fewer than two numbers is refused by 3 before all else, and settings of fewer than eleven by 3
 * after 15. 14 looks at the held count too. */
int32_t bihargesh_rows(uint16_t *plane, size_t plane_len, const uint8_t *vedge, size_t vedge_len, const uint8_t *hedge, size_t hedge_len,
                       const uint8_t *sqw, size_t sqw_len, const uint8_t *sqh, size_t sqh_len, const uint16_t *qindex, size_t qindex_len,
                       const uint16_t *tiles, size_t tiles_len, const uint8_t *keep, size_t keep_len, const uint32_t *steps, size_t steps_len,
                       const int32_t *settings, size_t settings_len, size_t filled, size_t *state, size_t state_len, size_t *place, size_t place_len,
                       size_t *counts, size_t counts_len);

/* Where the settings of a plane stand on which a record is run. */
enum bihargesh_replay_setting {
  BIHARGESH_REPLAY_COLS,
  BIHARGESH_REPLAY_ROWS,
  BIHARGESH_REPLAY_STRIDE,
  BIHARGESH_REPLAY_DEPTH,
  BIHARGESH_REPLAY_SETTINGS
};

/* Runs the edges of a record on a plane, one after the other as they stand, and answers 0. The record of bihargesh_record_plane with the plane and the keep
 * marks that were lent to it give the plane that it left. Any whole record is run: an edge may stand in it twice, and x and y need not be multiples of 4.
 * keep is as in bihargesh_plane: no sample of a kept cell is stored, wherever an edge stands.
 * plane has rows of stride samples; direction is 0 or 1, the length pair 0..7, q 0..2048, side 0..839, and x and y are anything with room in the plane.
 * settings, four numbers: cols and rows (cells each way, 1..1024), stride (4*cols..8192), depth. Refusals 1, 2, 3, 11, 12, 13, 6, 7, 8, in this order: 12 with
 * the number of the cut entry, 13 and 7 with that of the first bad one; 6 with the first cell that has a bad keep mark; 8 over 4*cols by 4*rows samples.
 * A short record is refused by 11 or 12, never by 3.
 * The counts are sums modulo 2^64, which a record of 2^58 edges may reach. */
int32_t bihargesh_replay(uint16_t *plane, size_t plane_len, const uint8_t *record, size_t record_len, const uint8_t *keep, size_t keep_len,
                         const int32_t *settings, size_t settings_len, size_t *place, size_t place_len,
                         size_t *counts, size_t counts_len);

/* Where a TU grid's settings stand. */
enum bihargesh_tx_grid_setting {
  BIHARGESH_TX_GRID_COLS,
  BIHARGESH_TX_GRID_ROWS,
  BIHARGESH_TX_GRID_SSX,
  BIHARGESH_TX_GRID_SSY,
  BIHARGESH_TX_GRID_CAP_WIDTH,
  BIHARGESH_TX_GRID_CAP_HEIGHT,
  BIHARGESH_TX_GRID_SETTINGS
};

/* Builds the marks and size indices of a plane's cells from its leaves, keeps no cell, and answers 0: keep is 0 over cols*rows afterwards, whatever
 * it held before; bihargesh_keep_rectangle then marks those that are to be kept.
 * leaves and skips have four numbers a leaf: row, column (0..1023), width and height (1, 2, 4, .. 64, all in luma cells); 4096 added to
 * a leaf's width keeps the leaf whole. A skip leaf is whole, carries no 4096, and comes after every other leaf.
 * settings, six numbers: cols and rows (cells each way, 1..1024), subsampling across and down (0 0, 1 0 or 1 1), largest TU width and
 * height in cells (1, 2, 4, 8 or 16). Entries from cols*rows on stay. Refusals 2, 3, 5, 9, in this order. */
int32_t bihargesh_tx_grid(const uint16_t *leaves, size_t leaves_len, const uint16_t *skips, size_t skips_len, uint8_t *vedge, size_t vedge_len,
                          uint8_t *hedge, size_t hedge_len, uint8_t *sqw, size_t sqw_len, uint8_t *sqh, size_t sqh_len,
                          uint8_t *keep, size_t keep_len, const int32_t *settings, size_t settings_len, size_t *place, size_t place_len);

/* A leaf: row, column, width and height, in luma cells, as bihargesh_tx_grid has them one after the other. */
struct bihargesh_leaf {
  uint16_t row, col, w, h;
};

/* The same from leaves that are records, each list with its number of leaves: the same answer, place and lists as bihargesh_tx_grid gives for
 * their numbers. A list of records is never cut, so 3 speaks of the four lists, keep and the settings alone. */
int32_t bihargesh_tx_grid_leaves(const struct bihargesh_leaf *leaves, size_t leaves_len, const struct bihargesh_leaf *skips, size_t skips_len,
                                 uint8_t *vedge, size_t vedge_len, uint8_t *hedge, size_t hedge_len, uint8_t *sqw, size_t sqw_len,
                                 uint8_t *sqh, size_t sqh_len, uint8_t *keep, size_t keep_len, const int32_t *settings, size_t settings_len,
                                 size_t *place, size_t place_len);

/* Where the settings of a kept rectangle stand. */
enum bihargesh_keep_rectangle_setting {
  BIHARGESH_KEEP_RECTANGLE_COLS,
  BIHARGESH_KEEP_RECTANGLE_ROWS,
  BIHARGESH_KEEP_RECTANGLE_ROW,
  BIHARGESH_KEEP_RECTANGLE_COL,
  BIHARGESH_KEEP_RECTANGLE_HEIGHT,
  BIHARGESH_KEEP_RECTANGLE_WIDTH,
  BIHARGESH_KEEP_RECTANGLE_SETTINGS
};

/* Marks every cell of a rectangle as kept, and answers 0: its marks in keep are 1 afterwards, and all others stay, so that several rectangles are marked
 * by one call after the other.
 * settings, six numbers: cols and rows (cells each way of the plane, 1..1024), and of the rectangle its first row, its first column, its rows and its
 * columns, all in cells and from 0 on. What lies beyond the plane is cut off, however much that is; a rectangle without rows or columns marks none.
 * A negative number is refused by 2. Entries from cols*rows on stay. Refusals 2, 3, 6, in this order: 6 with the first lent mark other than 0 and 1. */
int32_t bihargesh_keep_rectangle(uint8_t *keep, size_t keep_len, const int32_t *settings, size_t settings_len, size_t *place, size_t place_len);

/* Where a qindex grid's settings stand. */
enum bihargesh_qindex_grid_setting {
  BIHARGESH_QINDEX_GRID_COLS,
  BIHARGESH_QINDEX_GRID_ROWS,
  BIHARGESH_QINDEX_GRID_SSX,
  BIHARGESH_QINDEX_GRID_SSY,
  BIHARGESH_QINDEX_GRID_SB_COLS,
  BIHARGESH_QINDEX_GRID_SETTINGS
};

/* Gives each cell of a plane the qindex of its superblock, and answers 0.
 * superblocks has the qindex of each superblock of 64x64 luma samples, row by row; a cell beyond the last takes the last.
 * settings, five numbers: cols and rows (cells each way, 1..1024), subsampling across and down (0 0, 1 0 or 1 1), superblocks across
 * (1..128). Entries from cols*rows on stay. Refusals 2, 3, in this order. */
int32_t bihargesh_qindex_grid(const uint16_t *superblocks, size_t superblocks_len, uint16_t *qindex, size_t qindex_len,
                              const int32_t *settings, size_t settings_len, size_t *place, size_t place_len);

/* Where a frame's settings stand. */
enum bihargesh_frame_setting {
  BIHARGESH_FRAME_WIDTH,
  BIHARGESH_FRAME_HEIGHT,
  BIHARGESH_FRAME_SSX,
  BIHARGESH_FRAME_SSY,
  BIHARGESH_FRAME_HAS_CHROMA,
  BIHARGESH_FRAME_CHROMA_DEBLOCK,
  BIHARGESH_FRAME_DEPTH,
  BIHARGESH_FRAME_DELTA_LUMA,
  BIHARGESH_FRAME_DELTA_CHROMA,
  BIHARGESH_FRAME_LUMA_STRIDE,
  BIHARGESH_FRAME_CHROMA_STRIDE,
  BIHARGESH_FRAME_CAP_WIDTH,
  BIHARGESH_FRAME_CAP_HEIGHT,
  BIHARGESH_FRAME_CHROMA_CAP_WIDTH,
  BIHARGESH_FRAME_CHROMA_CAP_HEIGHT,
  BIHARGESH_FRAME_SETTINGS
};

/* Filters a whole frame: builds the grids of luma and chroma from leaves and superblocks, and filters luma, then u and v. Answers 0.
 * Each grid is five lists as in bihargesh_plane, which hold afterwards what was built; a refusal by 7 or 8 also leaves them built, and every
 * other refusal leaves them as lent. leaves, chroma_leaves and skips are as in bihargesh_tx_grid, in luma cells; superblocks is as in
 * bihargesh_qindex_grid, in rows of ceil(width/64). tiles and chroma_tiles are as in bihargesh_plane, in cells of luma and of chroma.
 * keep and chroma_keep are bihargesh_plane's, for luma and for both chroma planes, each in cells of its own: a frame tests them before it builds its
 * grids (6, which leaves the grids as lent) and never writes them.
 * Without chroma, or with chroma_deblock 0, the planes u and v, their stride, chroma's grid, chroma_tiles and chroma_keep are neither tested nor touched.
 * settings, fifteen numbers: luma width and height (1..4096), subsampling across and down (0 0, 1 0 or 1 1), has_chroma and chroma_deblock
 * (0 or 1; 2 if not), depth, luma's delta and chroma's (-128..127), luma's stride and chroma's, largest TU width and height in cells of luma,
 * then of chroma (1, 2, 4, 8 or 16). Refusals 1, 2, 3, 4, 5, 9, 6, 7, 8, in this order, luma before chroma in each. */
int32_t bihargesh_frame(uint16_t *y, size_t y_len, uint16_t *u, size_t u_len, uint16_t *v, size_t v_len,
                        uint8_t *luma_vedge, size_t luma_vedge_len, uint8_t *luma_hedge, size_t luma_hedge_len,
                        uint8_t *luma_sqw, size_t luma_sqw_len, uint8_t *luma_sqh, size_t luma_sqh_len,
                        uint16_t *luma_qindex, size_t luma_qindex_len,
                        uint8_t *chroma_vedge, size_t chroma_vedge_len, uint8_t *chroma_hedge, size_t chroma_hedge_len,
                        uint8_t *chroma_sqw, size_t chroma_sqw_len, uint8_t *chroma_sqh, size_t chroma_sqh_len,
                        uint16_t *chroma_qindex, size_t chroma_qindex_len,
                        const uint32_t *steps, size_t steps_len, const uint16_t *superblocks, size_t superblocks_len,
                        const uint16_t *leaves, size_t leaves_len, const uint16_t *chroma_leaves, size_t chroma_leaves_len,
                        const uint16_t *skips, size_t skips_len, const uint16_t *tiles, size_t tiles_len,
                        const uint16_t *chroma_tiles, size_t chroma_tiles_len, const uint8_t *keep, size_t keep_len,
                        const uint8_t *chroma_keep, size_t chroma_keep_len, const int32_t *settings, size_t settings_len,
                        size_t *place, size_t place_len, size_t *counts, size_t counts_len);

/* Where CCSO's settings stand. */
enum bihargesh_ccso_setting {
  BIHARGESH_CCSO_WIDTH,
  BIHARGESH_CCSO_HEIGHT,
  BIHARGESH_CCSO_SSX,
  BIHARGESH_CCSO_SSY,
  BIHARGESH_CCSO_DEPTH,
  BIHARGESH_CCSO_SCALE,
  BIHARGESH_CCSO_LO,
  BIHARGESH_CCSO_HI,
  BIHARGESH_CCSO_BELOW,
  BIHARGESH_CCSO_WITHIN,
  BIHARGESH_CCSO_ABOVE,
  BIHARGESH_CCSO_DX0,
  BIHARGESH_CCSO_DY0,
  BIHARGESH_CCSO_DX1,
  BIHARGESH_CCSO_DY1,
  BIHARGESH_CCSO_BAND_LOG2,
  BIHARGESH_CCSO_SETTINGS
};

/* Adds the gated CCSO offsets to a plane, and answers 0.
 * luma and target have no row padding; flags has a number for each block of 64x64 luma samples, row by row, and 0 leaves the block as it
 * is; offsets has 16 numbers a band, each -10..7. Keep marks don't count here.
 * settings, sixteen numbers: luma width and height (1..4096), subsampling across and down (0 0, 1 0 or 1 1), depth, scale (1..16), cuts
 * lo <= hi (-4095..4095), class numbers below lo, from lo to hi and above hi (0..3), taps dx0, dy0, dx1, dy1 (-16..16), band log2 (0..3).
 * Refusals 1, 2, 3, 5, 8, in this order; the place of 8 is in luma, or else in the target. */
int32_t bihargesh_ccso(const uint16_t *luma, size_t luma_len, uint16_t *target, size_t target_len, const uint8_t *flags, size_t flags_len,
                       const int8_t *offsets, size_t offsets_len, const int32_t *settings, size_t settings_len,
                       size_t *place, size_t place_len);

#ifdef __cplusplus
}
#endif

#endif
