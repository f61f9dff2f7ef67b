/* How a plane's edges are recorded from C, and the record run again.
 *
 *     record FOLDER           runs FOLDER/record.edg on FOLDER/before.pgm, which must give FOLDER/after.pgm; then records the same plane anew, which
 *                             must give all three again. The files in bindings/records were written on an x86-64 machine.
 *     record FOLDER write     writes them
 */
#include "bihargesh.h"
#include <stdio.h>
#include <string.h>

enum { COLS = 12, ROWS = 8, CELLS = COLS * ROWS, WIDTH = 4 * COLS, HEIGHT = 4 * ROWS, SAMPLES = WIDTH * HEIGHT, ROOM = 5 + 20 * CELLS };

static const char *folder;
static uint16_t plane[SAMPLES];
static uint8_t record[ROOM], bytes[ROOM], keep[CELLS]; /* no cell is kept */
static size_t counts[2];

/* A file of the folder as bytes; how many there are, or 0 where it can't be read or written. */
static size_t file(const char *name, const char *mode, uint8_t *list, size_t count) {
  char path[4096];
  snprintf(path, sizeof path, "%s/%s", folder, name);
  FILE *f = fopen(path, mode);
  if (!f) return printf("%s: can't be opened\n", path), 0;
  size_t done = mode[0] == 'w' ? fwrite(list, 1, count, f) : fread(list, 1, count, f);
  fclose(f);
  return done;
}

/* A plane as a picture of eight bits a sample, with the header that a reader of this program writes. */
static int picture(const char *name, int write, uint16_t *samples) {
  static uint8_t all[32 + SAMPLES];
  int head = snprintf((char *)all, 32, "P5\n%d %d\n255\n", WIDTH, HEIGHT);
  if (write) {
    for (int k = 0; k < SAMPLES; k++) all[head + k] = (uint8_t)samples[k];
    return file(name, "wb", all, (size_t)head + SAMPLES) == (size_t)head + SAMPLES;
  }
  if (file(name, "rb", all, sizeof all) != (size_t)head + SAMPLES) return 0;
  for (int k = 0; k < SAMPLES; k++) samples[k] = all[head + k];
  return 1;
}

/* Blocks with steps between them and a little noise on top. */
static void paint(void) {
  uint32_t noise = 1;
  for (int k = 0; k < SAMPLES; k++) {
    noise = noise * 1103515245u + 12345u;
    plane[k] = (uint16_t)(100 + 7 * (k % WIDTH / 16) + 5 * (k / WIDTH / 8) + (int)(noise >> 16) % 3);
  }
}

/* Filters the plane and records its edges: the record's length, or minus the number of a refusal. */
static int32_t record_plane(void) {
  static uint8_t vedge[CELLS], hedge[CELLS], sqw[CELLS], sqh[CELLS];
  static uint16_t qindex[CELLS];
  static uint32_t steps[352];
  const uint16_t leaves[12] = {0, 0, 4, 8, 0, 4, 4, 8, 0, 8, 4, 8}, superblocks[1] = {190};
  const int32_t tx[6] = {COLS, ROWS, 0, 0, 4, 2}, q[5] = {COLS, ROWS, 0, 0, 1};
  const int32_t settings[BIHARGESH_PLANE_SETTINGS] = {COLS, ROWS, WIDTH, WIDTH, HEIGHT, 16, 16, 0, 8, 0, 0};
  if (bihargesh_tx_grid(leaves, 12, NULL, 0, vedge, CELLS, hedge, CELLS, sqw, CELLS, sqh, CELLS, keep, CELLS, tx, 6, NULL, 0) != 0) return -1;
  if (bihargesh_qindex_grid(superblocks, 1, qindex, CELLS, q, 5, NULL, 0) != 0 || bihargesh_steps(steps, 352) != 0) return -1;
  return bihargesh_record_plane(plane, SAMPLES, record, ROOM, vedge, CELLS, hedge, CELLS, sqw, CELLS, sqh, CELLS, qindex, CELLS, NULL, 0, keep, CELLS,
                                steps, 352, settings, BIHARGESH_PLANE_SETTINGS, NULL, 0, counts, 2);
}

/* The folder's files by a run here. */
static int write_files(void) {
  paint();
  if (!picture("before.pgm", 1, plane)) return 1;
  int32_t length = record_plane();
  if (length < 5 || file("record.edg", "wb", record, (size_t)length) != (size_t)length) return 1;
  return picture("after.pgm", 1, plane) ? 0 : 1;
}

/* Both ways to the filtered plane, held to the folder's files. */
static int check_files(void) {
  static uint16_t before[SAMPLES], after[SAMPLES];
  const int32_t settings[BIHARGESH_REPLAY_SETTINGS] = {COLS, ROWS, WIDTH, 8};
  size_t again[2], length = file("record.edg", "rb", bytes, ROOM);
  if (!picture("before.pgm", 0, before) || !picture("after.pgm", 0, after) || length < 5) return printf("the folder's files are not whole\n"), 1;
  memcpy(plane, before, sizeof plane);
  if (bihargesh_replay(plane, SAMPLES, bytes, length, keep, CELLS, settings, BIHARGESH_REPLAY_SETTINGS, NULL, 0, again, 2) != 0) return printf("the record was refused\n"), 1;
  if (memcmp(plane, after, sizeof plane) != 0) return printf("the record that is run again gives another plane\n"), 1;
  memcpy(plane, before, sizeof plane);
  if (record_plane() != (int32_t)length || memcmp(record, bytes, length) != 0) return printf("the plane's record is another\n"), 1;
  if (memcmp(plane, after, sizeof plane) != 0) return printf("the recorded run gives another plane\n"), 1;
  if (memcmp(counts, again, sizeof counts) != 0) return printf("the record that is run again has other counts\n"), 1;
  printf("C, a record of another machine: %zu edges run again, %zu samples stored, %zu of them changed\n", (length - 5) / 10, counts[0], counts[1]);
  return 0;
}

int main(int count, char **words) {
  if (count < 2) return printf("record FOLDER [write]\n"), 2;
  folder = words[1];
  return count == 3 && strcmp(words[2], "write") == 0 ? write_files() : check_files();
}
