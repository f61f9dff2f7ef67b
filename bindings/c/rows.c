/* How a plane is filtered from C while its rows come: the same plane and counts as filtered whole; and what a bad count, a bad sample and a short state give. */
#include "bihargesh.h"
#include <stdio.h>
#include <string.h>

enum { COLS = 8, ROWS = 8, CELLS = COLS * ROWS, STRIDE = 4 * COLS, HEIGHT = 4 * ROWS, SAMPLES = STRIDE * HEIGHT };

static uint8_t vedge[CELLS], hedge[CELLS], sqw[CELLS], sqh[CELLS], keep[CELLS];
static uint16_t qindex[CELLS], picture[SAMPLES], whole[SAMPLES], plane[SAMPLES], lent[SAMPLES];
static uint32_t steps[352];
static const int32_t settings[BIHARGESH_PLANE_SETTINGS] = {
    [BIHARGESH_PLANE_COLS] = COLS,        [BIHARGESH_PLANE_ROWS] = ROWS,    [BIHARGESH_PLANE_STRIDE] = STRIDE,
    [BIHARGESH_PLANE_WIDTH] = STRIDE,     [BIHARGESH_PLANE_HEIGHT] = HEIGHT, [BIHARGESH_PLANE_SB_WIDTH] = 16,
    [BIHARGESH_PLANE_SB_HEIGHT] = 16,     [BIHARGESH_PLANE_CHROMA] = 0,     [BIHARGESH_PLANE_DEPTH] = 8};

/* One call: how many rows are final, or minus the number of a refusal. */
static int32_t rows(size_t filled, size_t *state, size_t state_len, size_t *place, size_t counts[2]) {
  return bihargesh_rows(plane, SAMPLES, vedge, CELLS, hedge, CELLS, sqw, CELLS, sqh, CELLS, qindex, CELLS, NULL, 0, keep, CELLS, steps, 352,
                        settings, BIHARGESH_PLANE_SETTINGS, filled, state, state_len, place, 1, counts, 2);
}

/* A call that is refused by a number at a place, and leaves the plane. */
static int refused(const char *what, int32_t number, size_t at, size_t filled, size_t *state, size_t state_len) {
  size_t place = 77, counts[2] = {77, 77};
  memcpy(lent, plane, sizeof lent);
  const int32_t answer = rows(filled, state, state_len, &place, counts);
  const int good = answer == -number && place == at && counts[0] == 0 && counts[1] == 0 && memcmp(lent, plane, sizeof lent) == 0;
  if (!good) printf("%s: answer %d, place %zu\n", what, (int)answer, place);
  return good;
}

int main(void) {
  /* one leaf of 8 by 8 cells, cut into TUs of 4 by 4 cells; one superblock, of qindex 200 */
  const uint16_t leaves[4] = {0, 0, 8, 8}, superblocks[1] = {200};
  const int32_t tx[6] = {COLS, ROWS, 0, 0, 4, 4}, q[5] = {COLS, ROWS, 0, 0, 1};
  const size_t cuts[] = {4, 12, 12, 20, 28, HEIGHT};
  size_t place = 0, counts[2], sums[2] = {0, 0}, state[BIHARGESH_ROWS_STATE] = {0, 0}, from = 0;
  if (bihargesh_tx_grid(leaves, 4, NULL, 0, vedge, CELLS, hedge, CELLS, sqw, CELLS, sqh, CELLS, keep, CELLS, tx, 6, &place, 1)) return 1;
  if (bihargesh_qindex_grid(superblocks, 1, qindex, CELLS, q, 5, &place, 1) || bihargesh_steps(steps, 352)) return 1;

  /* quarters of 100, 104, 106 and 110 */
  for (int k = 0; k < SAMPLES; k++) picture[k] = (uint16_t)(100 + (k % STRIDE < STRIDE / 2 ? 0 : 4) + (k < SAMPLES / 2 ? 0 : 6));
  memcpy(whole, picture, sizeof whole);
  if (bihargesh_plane(whole, SAMPLES, vedge, CELLS, hedge, CELLS, sqw, CELLS, sqh, CELLS, qindex, CELLS, NULL, 0, keep, CELLS, steps, 352,
                      settings, BIHARGESH_PLANE_SETTINGS, &place, 1, counts, 2))
    return 1;

  /* the rows come in six calls; 65535 stands where none has come yet */
  memset(plane, 255, sizeof plane);
  printf("C, rows as they come:");
  for (size_t c = 0; c < sizeof cuts / sizeof *cuts; c++) {
    size_t here[2];
    memcpy(plane + from * STRIDE, picture + from * STRIDE, (cuts[c] - from) * STRIDE * sizeof *plane);
    const int32_t last = rows(cuts[c], state, BIHARGESH_ROWS_STATE, &place, here);
    printf(" %zu filled, %d final;", cuts[c], (int)last);
    if (last != (cuts[c] == HEIGHT ? HEIGHT : cuts[c] < 12 ? 0 : (int32_t)cuts[c] - 12)) return 1;
    if (state[BIHARGESH_ROWS_HELD] != cuts[c] || state[BIHARGESH_ROWS_SPENT] != 0) return 1;
    if (memcmp(plane, whole, (size_t)last * STRIDE * sizeof *plane) != 0) return 1;
    for (size_t k = cuts[c] * STRIDE; k < SAMPLES; k++)
      if (plane[k] != 65535) return 1;
    from = cuts[c], sums[0] += here[0], sums[1] += here[1];
  }
  printf(" %zu samples stored, %zu of them changed\n", sums[0], sums[1]);
  if (memcmp(plane, whole, sizeof plane) != 0 || sums[0] != counts[0] || sums[1] != counts[1] || sums[1] == 0) return 1;

  /* bad counts leave the state; so does a state that is too short to be read */
  size_t some[BIHARGESH_ROWS_STATE] = {8, 0}, one[1] = {8};
  if (!refused("no multiple of 4", BIHARGESH_BAD_ROWS, 0, 10, some, 2) || !refused("beyond the plane", BIHARGESH_BAD_ROWS, 0, HEIGHT + 4, some, 2) ||
      !refused("below the held", BIHARGESH_BAD_ROWS, 0, 4, some, 2) || some[0] != 8 || some[1] != 0)
    return 1;
  if (!refused("a short state", BIHARGESH_BAD_LENGTH, 0, 4, one, 1) || !refused("no state", BIHARGESH_BAD_LENGTH, 0, 4, NULL, 0) || one[0] != 8) return 1;

  /* a bad sample in the new rows spends the state, and each further call is refused, whatever it is told */
  memcpy(plane, picture, sizeof plane);
  plane[9 * STRIDE + 5] = 256;
  if (!refused("a bad sample", BIHARGESH_BAD_SAMPLE, 9 * STRIDE + 5, 12, some, 2) || some[0] != 8 || some[1] != 1) return 1;
  plane[9 * STRIDE + 5] = 100;
  if (!refused("a spent state", BIHARGESH_SPENT_STATE, 0, 12, some, 2) || !refused("a spent state, a bad count", BIHARGESH_SPENT_STATE, 0, 3, some, 2) ||
      some[0] != 8 || some[1] != 1)
    return 1;
  some[1] = 7;
  return !refused("spent where it isn't 0", BIHARGESH_SPENT_STATE, 0, 12, some, 2) || some[0] != 8 || some[1] != 7;
}
