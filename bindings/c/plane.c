/* How a plane is filtered from C: its grids are built from one leaf and one superblock, then its edges are filtered; and again with a rectangle of
 * cells kept. */
#include "bihargesh.h"
#include <stdio.h>
#include <string.h>

enum { COLS = 8, ROWS = 8, CELLS = COLS * ROWS, STRIDE = 4 * COLS, SAMPLES = STRIDE * 4 * ROWS };

static uint8_t vedge[CELLS], hedge[CELLS], sqw[CELLS], sqh[CELLS], keep[CELLS];
static uint16_t qindex[CELLS], plane[SAMPLES], whole[SAMPLES], lent[SAMPLES];
static uint32_t steps[352];

/* What C is told: 0, or minus the number of a refusal, whose place is in `place`. */
static int said(const char *what, int32_t answer, size_t place) {
  if (answer != 0) printf("%s: refused by %d at place %zu\n", what, -answer, place);
  return answer;
}

static int32_t deblock(size_t *place, size_t counts[2]) {
  const int32_t settings[BIHARGESH_PLANE_SETTINGS] = {
      [BIHARGESH_PLANE_COLS] = COLS,        [BIHARGESH_PLANE_ROWS] = ROWS,        [BIHARGESH_PLANE_STRIDE] = STRIDE,
      [BIHARGESH_PLANE_WIDTH] = STRIDE,     [BIHARGESH_PLANE_HEIGHT] = 4 * ROWS,  [BIHARGESH_PLANE_SB_WIDTH] = 16,
      [BIHARGESH_PLANE_SB_HEIGHT] = 16,     [BIHARGESH_PLANE_CHROMA] = 0,         [BIHARGESH_PLANE_DEPTH] = 8};
  /* one tile: the list of tile starts is empty */
  return bihargesh_plane(plane, SAMPLES, vedge, CELLS, hedge, CELLS, sqw, CELLS, sqh, CELLS, qindex, CELLS, NULL, 0, keep, CELLS, steps, 352,
                         settings, BIHARGESH_PLANE_SETTINGS, place, 1, counts, 2);
}

/* 100 in the left half, 108 in the right. */
static void halves(void) {
  for (int k = 0; k < SAMPLES; k++) plane[k] = k % STRIDE < STRIDE / 2 ? 100 : 108;
}

/* The samples on both sides of the step, and the counts. */
static void show(const char *what, const size_t counts[2]) {
  printf("%s:", what);
  for (int k = 8; k < 24; k++) printf(" %d", plane[k]);
  printf("; %zu samples stored, %zu of them changed\n", counts[0], counts[1]);
}

int main(void) {
  /* one leaf of 8 by 8 cells, cut into TUs of 4 by 4 cells; one superblock, of qindex 200 */
  const uint16_t leaves[4] = {0, 0, 8, 8}, superblocks[1] = {200};
  const int32_t tx[6] = {COLS, ROWS, 0, 0, 4, 4}, q[5] = {COLS, ROWS, 0, 0, 1};
  const int32_t right[BIHARGESH_KEEP_RECTANGLE_SETTINGS] = {
      [BIHARGESH_KEEP_RECTANGLE_COLS] = COLS, [BIHARGESH_KEEP_RECTANGLE_ROWS] = ROWS,   [BIHARGESH_KEEP_RECTANGLE_ROW] = 0,
      [BIHARGESH_KEEP_RECTANGLE_COL] = 4,     [BIHARGESH_KEEP_RECTANGLE_HEIGHT] = ROWS, [BIHARGESH_KEEP_RECTANGLE_WIDTH] = 4};
  size_t place = 0, counts[2], all;
  /* the TU grid keeps no cell */
  if (said("the TU grid", bihargesh_tx_grid(leaves, 4, NULL, 0, vedge, CELLS, hedge, CELLS, sqw, CELLS, sqh, CELLS, keep, CELLS, tx, 6, &place, 1), place)) return 1;
  if (said("the qindex grid", bihargesh_qindex_grid(superblocks, 1, qindex, CELLS, q, 5, &place, 1), place)) return 1;

  halves();
  if (said("the steps", bihargesh_steps(steps, 352), place)) return 1;
  if (said("the plane", deblock(&place, counts), place)) return 1;
  show("C, a plane", counts);
  if (counts[1] == 0 || counts[1] > counts[0]) return 1;
  if (plane[15] <= 100 || plane[16] >= 108) return 1;

  /* the same with the right half kept: its samples are read and stay, and the left half is filtered as before */
  memcpy(whole, plane, sizeof whole);
  all = counts[0];
  halves();
  if (said("the rectangle", bihargesh_keep_rectangle(keep, CELLS, right, BIHARGESH_KEEP_RECTANGLE_SETTINGS, &place, 1), place)) return 1;
  if (said("the plane with kept cells", deblock(&place, counts), place)) return 1;
  show("C, its right half kept", counts);
  for (int k = 0; k < SAMPLES; k++)
    if (plane[k] != (k % STRIDE < STRIDE / 2 ? whole[k] : 108)) return 1;
  if (counts[0] >= all) return 1;

  /* a sample that is too large is refused with its place, the plane stays as it was, and none are counted */
  plane[70] = 256;
  memcpy(lent, plane, sizeof lent);
  if (deblock(&place, counts) != -BIHARGESH_BAD_SAMPLE || place != 70 || counts[0] != 0 || counts[1] != 0) return 1;
  return memcmp(lent, plane, sizeof lent) == 0 ? 0 : 1;
}
