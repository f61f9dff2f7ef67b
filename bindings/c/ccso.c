/* How the gated CCSO offsets are added from C: a row of luma with a step, and a target that is raised before the step and lowered after it. */
#include "bihargesh.h"
#include <stdio.h>

enum { WIDTH = 16, TAP = 3 };

int main(void) {
  uint16_t luma[WIDTH], target[WIDTH];
  const uint8_t flags[1] = {1}; /* the one block of 64x64 is offset */
  int8_t offsets[16] = {0};     /* one band: place 4 * (class of the first tap) + (class of the second) */
  const int32_t settings[BIHARGESH_CCSO_SETTINGS] = {
      [BIHARGESH_CCSO_WIDTH] = WIDTH, [BIHARGESH_CCSO_HEIGHT] = 1, [BIHARGESH_CCSO_DEPTH] = 8, [BIHARGESH_CCSO_SCALE] = 2,
      [BIHARGESH_CCSO_LO] = -9,       [BIHARGESH_CCSO_HI] = 9,     [BIHARGESH_CCSO_BELOW] = 0, [BIHARGESH_CCSO_WITHIN] = 1,
      [BIHARGESH_CCSO_ABOVE] = 2,     [BIHARGESH_CCSO_DX0] = -TAP, [BIHARGESH_CCSO_DX1] = TAP};
  size_t place = 0;
  for (int k = 0; k < WIDTH; k++) luma[k] = target[k] = k < WIDTH / 2 ? 100 : 130;
  offsets[4 * 1 + 2] = 3;  /* much brighter three samples on: plus 3 times the scale */
  offsets[4 * 0 + 1] = -3; /* much darker three samples back: minus 3 times the scale */
  int32_t answer = bihargesh_ccso(luma, WIDTH, target, WIDTH, flags, 1, offsets, 16, settings, BIHARGESH_CCSO_SETTINGS, &place, 1);
  if (answer != 0) {
    printf("the offsets: refused by %d at place %zu\n", -answer, place);
    return 1;
  }
  printf("C, CCSO:");
  for (int k = 0; k < WIDTH; k++) printf(" %d", target[k]);
  printf("\n");
  return target[4] == 100 && target[5] == 106 && target[7] == 106 && target[8] == 124 && target[10] == 124 && target[11] == 130 ? 0 : 1;
}
