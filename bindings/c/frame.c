/* How a whole frame is filtered from C: 64x64 luma with 4:2:0 chroma, one leaf of 16 by 16 cells cut into TUs of 4 by 4. */
#include "bihargesh.h"
#include <stdio.h>

enum { SIZE = 64, CELLS = 16 * 16, CHROMA = SIZE / 2, CHROMA_CELLS = 8 * 8 };

/* A grid that the frame builds: marks and size indices of its cells, and their qindex. */
struct grid {
  uint8_t vedge[CELLS], hedge[CELLS], sqw[CELLS], sqh[CELLS];
  uint16_t qindex[CELLS];
};

static uint16_t y[SIZE * SIZE], u[CHROMA * CHROMA], v[CHROMA * CHROMA];
static struct grid luma, chroma;
static const uint8_t keep[CELLS], chroma_keep[CHROMA_CELLS]; /* zeros: no cell is kept */
static uint32_t steps[352];

/* A plane of n by n samples: 100 in its left half, 108 in its right. */
static void halves(uint16_t *plane, int n) {
  for (int k = 0; k < n * n; k++) plane[k] = k % n < n / 2 ? 100 : 108;
}

int main(void) {
  const uint16_t leaves[4] = {0, 0, 16, 16}, superblocks[1] = {200};
  const int32_t settings[BIHARGESH_FRAME_SETTINGS] = {
      [BIHARGESH_FRAME_WIDTH] = SIZE,         [BIHARGESH_FRAME_HEIGHT] = SIZE,          [BIHARGESH_FRAME_SSX] = 1,
      [BIHARGESH_FRAME_SSY] = 1,              [BIHARGESH_FRAME_HAS_CHROMA] = 1,         [BIHARGESH_FRAME_CHROMA_DEBLOCK] = 1,
      [BIHARGESH_FRAME_DEPTH] = 8,            [BIHARGESH_FRAME_LUMA_STRIDE] = SIZE,     [BIHARGESH_FRAME_CHROMA_STRIDE] = CHROMA,
      [BIHARGESH_FRAME_CAP_WIDTH] = 4,        [BIHARGESH_FRAME_CAP_HEIGHT] = 4,         [BIHARGESH_FRAME_CHROMA_CAP_WIDTH] = 4,
      [BIHARGESH_FRAME_CHROMA_CAP_HEIGHT] = 4};
  size_t place = 0, counts[2];
  halves(y, SIZE);
  halves(u, CHROMA);
  halves(v, CHROMA);
  if (bihargesh_steps(steps, 352) != 0) return 1;
  /* no skip leaves, and one tile in luma and in chroma */
  int32_t answer = bihargesh_frame(
      y, SIZE * SIZE, u, CHROMA * CHROMA, v, CHROMA * CHROMA, luma.vedge, CELLS, luma.hedge, CELLS, luma.sqw, CELLS, luma.sqh, CELLS,
      luma.qindex, CELLS, chroma.vedge, CHROMA_CELLS, chroma.hedge, CHROMA_CELLS, chroma.sqw, CHROMA_CELLS, chroma.sqh, CHROMA_CELLS,
      chroma.qindex, CHROMA_CELLS, steps, 352, superblocks, 1, leaves, 4, leaves, 4, NULL, 0, NULL, 0, NULL, 0, keep, CELLS, chroma_keep, CHROMA_CELLS,
      settings, BIHARGESH_FRAME_SETTINGS, &place, 1, counts, 2);
  if (answer != 0) {
    printf("the frame: refused by %d at place %zu\n", -answer, place);
    return 1;
  }
  printf("C, a frame: luma");
  for (int k = SIZE / 2 - 4; k < SIZE / 2 + 4; k++) printf(" %d", y[k]);
  printf(", u");
  for (int k = CHROMA / 2 - 4; k < CHROMA / 2 + 4; k++) printf(" %d", u[k]);
  printf("; %zu samples stored, %zu of them changed\n", counts[0], counts[1]);
  if (counts[1] == 0 || counts[1] > counts[0]) return 1;
  return y[SIZE / 2 - 1] > 100 && y[SIZE / 2] < 108 && u[CHROMA / 2 - 1] > 100 && v[CHROMA / 2] < 108 ? 0 : 1;
}
