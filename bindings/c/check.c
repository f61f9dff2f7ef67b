/* Calls the functions of the static library from C and holds them to document 01's figures and refusals, to ticket 4's counts, to ticket 5's tile starts, to
 * ticket 7's kept cells, and the plain engine to the scheduled one. */
#include "bihargesh.h"
#include <stdio.h>
#include <string.h>

static int failures, checks;

static void same(const char *what, long long got, long long want) {
  checks++;
  if (got != want) {
    failures++;
    printf("%s: got %lld, want %lld\n", what, got, want);
  }
}

static uint8_t steps[1408];

static void put_step(int k, uint32_t v) {
  for (int b = 0; b < 4; b++) steps[4 * k + b] = (uint8_t)(v >> (8 * b));
}

/* a table that is good: 64, then k * 40 */
static void good_steps(void) {
  put_step(0, 64);
  for (int k = 1; k < 352; k++) put_step(k, 40u * (uint32_t)k);
}

static void thresholds(void) {
  good_steps();
  put_step(100, 507);
  put_step(101, 508);
  same("step 507", bihargesh_thresholds(100, 100, 0, 0, 8, steps, sizeof steps) >> 16, 0);
  same("step 508", bihargesh_thresholds(101, 101, 0, 0, 8, steps, sizeof steps) >> 16, 1);
  same("side at 78", bihargesh_thresholds(78, 78, 0, 0, 8, steps, sizeof steps) & 65535, 0);
  same("side at 79", bihargesh_thresholds(79, 79, 0, 0, 8, steps, sizeof steps) & 65535, 1);
  same("side at 295, depth 8", bihargesh_thresholds(295, 295, 0, 0, 8, steps, sizeof steps) & 65535, 52);
  same("side at 295, depth 10", bihargesh_thresholds(343, 343, 0, 0, 10, steps, sizeof steps) & 65535, 210);
  same("side at 295, depth 12", bihargesh_thresholds(391, 391, 0, 0, 12, steps, sizeof steps) & 65535, 839);
  put_step(10, 512 * 4 - 4);
  put_step(11, 512 * 7 - 4);
  same("q of 4 and 7", bihargesh_thresholds(10, 11, 0, 0, 8, steps, sizeof steps) >> 16, 6);
  same("q of 0 and 7", bihargesh_thresholds(100, 11, 0, 0, 8, steps, sizeof steps) >> 16, 7);
  good_steps();
  same("depth 9", bihargesh_thresholds(1, 1, 0, 0, 9, steps, sizeof steps), -1);
  same("short table", bihargesh_thresholds(1, 1, 0, 0, 8, steps, sizeof steps - 4), -4);
  same("no table", bihargesh_thresholds(1, 1, 0, 0, 8, steps, 0), -4);
  put_step(0, 63);
  same("entry 0 not 64", bihargesh_thresholds(1, 1, 0, 0, 8, steps, sizeof steps), -4);
  good_steps();
  put_step(351, 1048577);
  same("entry too large", bihargesh_thresholds(1, 1, 0, 0, 8, steps, sizeof steps), -4);
  good_steps();
  same("delta 128", bihargesh_thresholds(1, 1, 128, 0, 8, steps, sizeof steps), -5);
  same("delta -129", bihargesh_thresholds(1, 1, 0, -129, 8, steps, sizeof steps), -5);
}

static uint8_t window[144];
static size_t counts[2];

/* four lines, nine samples of a and nine of b */
static void flat(unsigned a, unsigned b) {
  for (int j = 0; j < 4; j++)
    for (int k = 0; k < 18; k++) {
      unsigned v = k < 9 ? a : b;
      window[2 * (18 * j + k)] = (uint8_t)(v & 255);
      window[2 * (18 * j + k) + 1] = (uint8_t)(v >> 8);
    }
}

static unsigned at(int j, int k) { return window[2 * (18 * j + k)] + 256u * window[2 * (18 * j + k) + 1]; }

static void segments(void) {
  static const unsigned qs[5] = {3, 4, 6, 7, 8}, ws[5] = {1, 2, 4, 6, 8};
  static const unsigned wide[18] = {100, 100, 101, 101, 102, 102, 103, 103, 104, 104, 105, 105, 106, 106, 107, 107, 108, 108};
  static const unsigned uneven[18] = {100, 100, 100, 101, 101, 102, 103, 103, 104, 104, 105, 105, 106, 106, 107, 107, 108, 108};
  for (int i = 0; i < 5; i++) {
    flat(100, 108);
    same("width at 18,18", bihargesh_segment(window, sizeof window, 8, 3, qs[i], 40, counts, 2), ws[i]);
    same("stored at 18,18", (long long)counts[0], 8 * ws[i]);
  }
  flat(100, 108);
  same("width at 8,8", bihargesh_segment(window, sizeof window, 8, 1, 6, 40, counts, 2), 3);
  flat(100, 108);
  bihargesh_segment(window, sizeof window, 8, 3, 8, 40, counts, 2);
  for (int j = 0; j < 4; j++)
    for (int k = 0; k < 18; k++) same("sample at 18,18", at(j, k), wide[k]);
  same("changed at 18,18", (long long)counts[1], 56);
  flat(100, 108);
  bihargesh_segment(window, sizeof window, 8, 4, 8, 40, counts, 2);
  for (int j = 0; j < 4; j++)
    for (int k = 0; k < 18; k++) same("sample at 14,18", at(j, k), uneven[k]);
  same("stored at 14,18", (long long)counts[0], 4 * (6 + 8));
  same("changed at 14,18", (long long)counts[1], 4 * (6 + 7));
  flat(100, 92);
  bihargesh_segment(window, sizeof window, 8, 3, 3, 40, counts, 2);
  same("p0 of 100 | 92", at(0, 8), 97);
  same("q0 of 100 | 92", at(3, 9), 95);
}

/* A refusal counts none; the list then holds other numbers again. */
static void none(const char *what) {
  same(what, (long long)counts[0], 0);
  same(what, (long long)counts[1], 0);
  counts[0] = counts[1] = 99;
}

static void refused(const char *what, int32_t got, int32_t want, const uint8_t *before) {
  same(what, got, want);
  none(what);
  same("the window as lent", memcmp(window, before, sizeof window), 0);
}

static void refusals(void) {
  uint8_t before[144];
  flat(100, 300);
  memcpy(before, window, sizeof window);
  refused("depth 11", bihargesh_segment(window, sizeof window, 11, 3, 8, 40, counts, 2), -1, before);
  refused("143 bytes", bihargesh_segment(window, 143, 8, 3, 8, 40, counts, 2), -3, before);
  refused("pair 8", bihargesh_segment(window, sizeof window, 8, 8, 8, 40, counts, 2), -5, before);
  refused("q 2049", bihargesh_segment(window, sizeof window, 8, 3, 2049, 40, counts, 2), -5, before);
  refused("side 840", bihargesh_segment(window, sizeof window, 8, 3, 8, 840, counts, 2), -5, before);
  refused("sample 300", bihargesh_segment(window, sizeof window, 8, 3, 8, 40, counts, 2), -8, before);
  same("300 at depth 10", bihargesh_segment(window, sizeof window, 10, 3, 0, 40, counts, 2), 0);
  none("300 at depth 10");
  flat(100, 108);
  window[1] = 255;
  memcpy(before, window, sizeof window);
  same("p8 lies beyond every reach", bihargesh_segment(window, sizeof window, 8, 0, 0, 40, counts, 2), 0);
}

/* Counts go as far as their list does. */
static void short_counts(void) {
  size_t list[3] = {7, 8, 9};
  flat(100, 108);
  same("no counts wanted", bihargesh_segment(window, sizeof window, 8, 3, 8, 40, NULL, 0), 8);
  flat(100, 108);
  same("one count wanted", bihargesh_segment(window, sizeof window, 8, 3, 8, 40, list, 1), 8);
  same("stored alone", list[0] == 64 && list[1] == 8, 1);
  flat(100, 100);
  same("a flat window", bihargesh_segment(window, sizeof window, 8, 3, 8, 40, list, 3), 8);
  same("stored, none changed, and an entry beyond", list[0] == 64 && list[1] == 0 && list[2] == 9, 1);
  same("a refusal with one count", bihargesh_segment(window, sizeof window, 9, 3, 8, 40, list, 1), -1);
  same("zero alone", list[0] == 0 && list[1] == 0 && list[2] == 9, 1);
}

#define LEN(list) (sizeof(list) / sizeof(list)[0])

/* ---- a plane of 24 by 4 samples with one edge, 100 before it and 108 from sample 8 on */

static uint16_t plane[96], lent[96], qindex[6], tiles[6];
static uint8_t vedge[6], hedge[6], sizes[6], keep[7];
static uint32_t table[352];
static int32_t plane_settings[11];
static size_t place[1], tiles_count, keep_count;

/* the qindex whose side threshold at depth 8 is 40; every step but the first gives q 8 */
static uint16_t index_of_side_40(void) {
  for (int k = 0; k < 352; k++) {
    table[k] = k == 0 ? 64 : 4092;
    put_step(k, table[k]);
  }
  uint16_t k = 0;
  while (k < 295 && (bihargesh_thresholds(k, k, 0, 0, 8, steps, sizeof steps) & 65535) != 40) k++;
  return k;
}

static void plane_anew(void) {
  static const int32_t numbers[11] = {6, 1, 24, 24, 4, 16, 16, 0, 8, 0, 0};
  uint16_t index = index_of_side_40();
  memcpy(plane_settings, numbers, sizeof numbers);
  for (int k = 0; k < 96; k++) plane[k] = k % 24 < 8 ? 100 : 108;
  for (int k = 0; k < 6; k++) {
    vedge[k] = k == 2;
    hedge[k] = 0;
    sizes[k] = 3;
    qindex[k] = index;
  }
  memset(keep, 0, sizeof keep);
  keep_count = 6;
  place[0] = 77;
  tiles_count = 0;
}

/* the list of tile starts, which is no list where it is empty */
static const uint16_t *starts(void) { return tiles_count ? tiles : NULL; }

static int32_t run_plane(size_t settings_len) {
  return bihargesh_plane(plane, LEN(plane), vedge, LEN(vedge), hedge, LEN(hedge), sizes, LEN(sizes), sizes, LEN(sizes), qindex, LEN(qindex),
                         starts(), tiles_count, keep, keep_count, table, LEN(table), plane_settings, settings_len, place, 1, counts, 2);
}

static void refused_plane(const char *what, size_t settings_len, int32_t want, size_t at) {
  memcpy(lent, plane, sizeof plane);
  same(what, run_plane(settings_len), want);
  none(what);
  same(what, (long long)place[0], (long long)at);
  same("the plane as lent", memcmp(plane, lent, sizeof plane), 0);
  plane_anew();
}

static void planes(void) {
  static const unsigned wide[18] = {100, 101, 101, 102, 102, 103, 103, 104, 104, 105, 105, 106, 106, 107, 107, 108, 108, 108};
  plane_anew();
  same("plane", run_plane(11), 0);
  same("place as lent", (long long)place[0], 77);
  same("stored in a plane", (long long)counts[0], 64);
  same("changed in a plane", (long long)counts[1], 56);
  for (int k = 0; k < 96; k++) same("sample of a plane", plane[k], k % 24 < 18 ? wide[k % 24] : 108);
  plane_anew();
  refused_plane("ten numbers", 10, -BIHARGESH_BAD_LENGTH, 0);
  plane_settings[8] = 9;
  refused_plane("ten numbers before the depth", 10, -BIHARGESH_BAD_LENGTH, 0);
  plane_settings[8] = 9;
  plane_settings[7] = 2;
  refused_plane("depth 9", 11, -1, 0);
  plane_settings[7] = 2;
  refused_plane("chroma 2", 11, -2, 0);
  plane_settings[7] = -1;
  refused_plane("chroma -1", 11, -2, 0);
  plane_settings[2] = -24;
  refused_plane("stride -24", 11, -2, 0);
  plane_settings[BIHARGESH_PLANE_SB_WIDTH] = 32;
  refused_plane("a superblock of 32 cells", 11, -BIHARGESH_BAD_SIZE, 0);
  plane_settings[BIHARGESH_PLANE_COLS] = 1025;
  refused_plane("1025 cells", 11, -BIHARGESH_BAD_SIZE, 0);
  plane_settings[1] = 2;
  plane_settings[4] = 8;
  refused_plane("a row too few", 11, -3, 0);
  table[5] = 1048577;
  refused_plane("step 5 too large", 11, -4, 5);
  plane_settings[10] = 128;
  refused_plane("delta 128", 11, -5, 0);
  hedge[4] = 2;
  refused_plane("mark 2", 11, -6, 4);
  vedge[1] = 1;
  refused_plane("no room", 11, -7, 1);
  plane[30] = 256;
  refused_plane("sample 256", 11, -8, 30);
  plane[95] = 300;
  refused_plane("sample 300", 11, -BIHARGESH_BAD_SAMPLE, 95);
  plane_settings[8] = 9;
  same("no place wanted",
       bihargesh_plane(plane, LEN(plane), vedge, LEN(vedge), hedge, LEN(hedge), sizes, LEN(sizes), sizes, LEN(sizes), qindex, LEN(qindex), NULL, 0,
                       keep, 6, table, LEN(table), plane_settings, 11, NULL, 0, NULL, 0),
       -1);
}

/* ---- the same plane with a record of its edge */

static uint8_t record[16], record_lent[16];

static int32_t record_plane(uint8_t *into, size_t room, size_t settings_len) {
  return bihargesh_record_plane(plane, LEN(plane), into, room, vedge, LEN(vedge), hedge, LEN(hedge), sizes, LEN(sizes), sizes, LEN(sizes), qindex,
                                LEN(qindex), starts(), tiles_count, keep, keep_count, table, LEN(table), plane_settings, settings_len, place, 1, counts, 2);
}

static void refused_record(const char *what, size_t room, size_t settings_len, int32_t want, size_t at) {
  memcpy(lent, plane, sizeof plane);
  memcpy(record_lent, record, sizeof record);
  same(what, record_plane(record, room, settings_len), want);
  none(what);
  same(what, (long long)place[0], (long long)at);
  same("the plane as lent", memcmp(plane, lent, sizeof plane), 0);
  same("the record as lent", memcmp(record, record_lent, sizeof record), 0);
  plane_anew();
}

static void records(void) {
  /* x 8, y 0, a vertical edge, pair 3, q 8, side 40; the last byte stays */
  static const uint8_t want[16] = {'E', 'D', 'G', 1, 0, 8, 0, 0, 0, 0, 3, 8, 0, 40, 0, 9};
  plane_anew();
  memset(record, 9, sizeof record);
  same("a record of one edge", record_plane(record, 16, 11), 15);
  same("stored and changed with a record", counts[0] == 64 && counts[1] == 56, 1);
  same("its bytes", memcmp(record, want, sizeof want), 0);
  same("place as lent", (long long)place[0], 77);
  memcpy(lent, plane, sizeof plane);
  plane_anew();
  same("plane", run_plane(11), 0);
  same("the plane as without a record", memcmp(plane, lent, sizeof plane), 0);
  plane_anew();
  memset(record, 9, sizeof record);
  same("a buffer of 15 bytes", record_plane(record, 15, 11), 15);
  same("its bytes", memcmp(record, want, sizeof want), 0);
  plane_anew();
  vedge[2] = 0;
  vedge[0] = hedge[3] = 1;
  same("no edge but at column 0 and row 0", record_plane(record, 5, 11), 5);
  plane_anew();
  refused_record("a buffer of 14 bytes", 14, 11, -BIHARGESH_SHORT_BUFFER, 0);
  refused_record("no buffer", 0, 11, -10, 0);
  refused_record("ten numbers", 16, 10, -BIHARGESH_BAD_LENGTH, 0);
  plane_settings[7] = 2;
  refused_record("chroma 2", 16, 11, -2, 0);
  plane_settings[8] = 9;
  refused_record("depth 9", 16, 11, -1, 0);
  plane[30] = 256;
  refused_record("sample 256 before a buffer of 14 bytes", 14, 11, -8, 30);
  vedge[1] = 1;
  refused_record("no room", 16, 11, -7, 1);
  same("no list for the record", record_plane(NULL, 0, 11), -10);
}

/* ---- tile starts in the same plane */

static void put_tiles(size_t count, const uint16_t *list) {
  plane_anew();
  memcpy(tiles, list, count * sizeof *list);
  tiles_count = count;
}

/* The list is refused by 5 with place 0, plane and record as lent. */
static void bad_tiles(const char *what, size_t count, const uint16_t *list) {
  put_tiles(count, list);
  refused_plane(what, 11, -BIHARGESH_BAD_SETTING, 0);
  put_tiles(count, list);
  refused_record(what, 16, 11, -5, 0);
}

/* A start elsewhere changes nothing; at the edge its pair is 14,18: document 01's figures, and the record's number of the pair. */
static void shortened(void) {
  static const unsigned uneven[17] = {100, 100, 101, 101, 102, 103, 103, 104, 104, 105, 105, 106, 106, 107, 107, 108, 108};
  plane_anew();
  same("one tile", run_plane(11), 0);
  memcpy(lent, plane, sizeof plane);
  put_tiles(4, (uint16_t[4]){1, 3, 4, 5});
  same("tiles elsewhere", run_plane(11), 0);
  same("the plane of one tile", memcmp(plane, lent, sizeof plane), 0);
  same("its counts", counts[0] == 64 && counts[1] == 56, 1);
  put_tiles(1, (uint16_t[1]){2});
  same("a tile at the edge", run_plane(11), 0);
  same("place as lent", (long long)place[0], 77);
  for (int k = 0; k < 96; k++) same("sample at a tile", plane[k], k % 24 < 17 ? uneven[k % 24] : 108);
  same("stored and changed at a tile", counts[0] == 4 * (6 + 8) && counts[1] == 4 * (6 + 7), 1);
  memcpy(lent, plane, sizeof plane);
  put_tiles(1, (uint16_t[1]){2});
  same("a record with a tile", record_plane(record, 16, 11), 15);
  same("pair 4", record[10], 4);
  same("the plane as without a record", memcmp(plane, lent, sizeof plane), 0);
}

/* Chroma's edge at column 1: of size index 2 to 6 it has room where a tile begins, by the pair 6,10, and none else. */
static void room_at_a_tile(void) {
  for (uint8_t index = 2; index <= 6; index++) {
    for (int tile = 0; tile < 2; tile++) {
      put_tiles((size_t)tile, (uint16_t[1]){1});
      plane_settings[BIHARGESH_PLANE_CHROMA] = 1;
      for (int k = 0; k < 96; k++) plane[k] = k % 24 < 4 ? 100 : 108;
      for (int k = 0; k < 6; k++) sizes[k] = index, vedge[k] = k == 1;
      if (tile == 0) {
        refused_plane("no room at column 1", 11, -BIHARGESH_NO_ROOM, 1);
        continue;
      }
      same("room at a tile", run_plane(11), 0);
      flat(100, 108);
      bihargesh_segment(window, sizeof window, 8, 7, 8, 40, NULL, 0);
      for (int k = 0; k < 48; k++) same("sample at 6,10", plane[k / 12 * 24 + k % 12], at(0, k % 12 + 5));
      same("stored at 6,10", (long long)counts[0], 4 * (2 + 4));
    }
  }
}

static void tile_starts(void) {
  shortened();
  room_at_a_tile();
  bad_tiles("a tile at column 0", 1, (uint16_t[1]){0});
  bad_tiles("a tile behind the last column", 1, (uint16_t[1]){6});
  bad_tiles("a tile at 65535", 2, (uint16_t[2]){2, 65535});
  bad_tiles("a tile twice", 2, (uint16_t[2]){2, 2});
  bad_tiles("tiles that fall", 3, (uint16_t[3]){1, 4, 3});
  put_tiles(1, (uint16_t[1]){0});
  table[5] = 1048577;
  refused_plane("a step before a tile", 11, -4, 5);
  put_tiles(1, (uint16_t[1]){0});
  hedge[4] = 2;
  refused_plane("a tile before a cell", 11, -5, 0);
}

/* ---- the plain engine beside bihargesh_plane, on planes drawn by chance: 20 by 9 cells, superblocks of 8 cells */

enum { MANY_COLS = 20, MANY_ROWS = 9, MANY_CELLS = MANY_COLS * MANY_ROWS, MANY = 16 * MANY_CELLS };

/* What both take, and what each leaves. */
static uint16_t many[2][MANY], many_blocks[MANY_CELLS], many_tiles[3];
static uint8_t many_marks[2][MANY_CELLS], many_sizes[2][MANY_CELLS], many_keep[MANY_CELLS];
static int32_t many_settings[11];

static unsigned drawn(unsigned below) {
  static uint32_t state = 20261116;
  state = state * 1664525u + 1013904223u;
  return (state >> 8) % below;
}

/* Steps between blocks and a little noise; marks at a third of the cells; at most three tile starts, in rising order; every second time a quarter of the
 * cells kept. */
static void draw_many(int kept) {
  const int32_t settings[11] = {MANY_COLS, MANY_ROWS, 4 * MANY_COLS, 4 * MANY_COLS, 4 * MANY_ROWS, 8, 8, 0, 8, 0, 0};
  memcpy(many_settings, settings, sizeof settings);
  many_settings[BIHARGESH_PLANE_SB_HEIGHT] += 8 * (int32_t)drawn(2);
  many_settings[BIHARGESH_PLANE_CHROMA] = (int32_t)drawn(2);
  for (int k = 0; k < MANY; k++) many[0][k] = (uint16_t)(100 + 6 * (k % (4 * MANY_COLS) / 8) + 5 * (k / (16 * MANY_COLS)) + (int)drawn(3));
  for (int k = 0; k < MANY_CELLS; k++) {
    int inner = k % MANY_COLS > 1 && k % MANY_COLS < MANY_COLS - 1, between = k / MANY_COLS > 1 && k / MANY_COLS < MANY_ROWS - 1;
    many_marks[0][k] = inner && drawn(3) == 0;
    many_marks[1][k] = between && drawn(3) == 0;
    many_sizes[0][k] = (uint8_t)drawn(7);
    many_sizes[1][k] = (uint8_t)drawn(7);
    many_blocks[k] = (uint16_t)(150 + drawn(100));
    many_keep[k] = kept && drawn(4) == 0;
  }
  for (int k = 0; k < 3; k++) many_tiles[k] = (uint16_t)(1 + 6 * k + (int)drawn(6));
}

/* One thing that is refused by each number, or nothing. */
static void damage_many(unsigned by) {
  if (by == 1) many_settings[BIHARGESH_PLANE_DEPTH] = 9;
  if (by == 2) many_settings[BIHARGESH_PLANE_SB_WIDTH] = 1;
  if (by == 3) many_settings[BIHARGESH_PLANE_STRIDE]++;
  if (by == 4) table[drawn(352)] = 1048577;
  if (by == 5) many_tiles[1] = many_tiles[2];
  if (by == 6) (drawn(2) ? many_keep : many_marks[drawn(2)])[drawn(MANY_CELLS)] = 2;
  if (by == 7) memset(many_sizes, 6, sizeof many_sizes), many_settings[BIHARGESH_PLANE_CHROMA] = 0, many_marks[0][1 + MANY_COLS * drawn(MANY_ROWS)] = 1;
  if (by == 8) many[0][drawn(MANY)] = 256;
}

static void plain_engine(void) {
  size_t places[2][1], both[2][2], changed = 0;
  for (unsigned k = 0; k < 900; k++) {
    int32_t answers[2];
    same("steps", bihargesh_steps(table, LEN(table)), 0);
    draw_many(k / 9 % 2);
    damage_many(k % 9);
    memcpy(many[1], many[0], sizeof many[0]);
    for (int plain = 0; plain < 2; plain++) {
      places[plain][0] = 77;
      answers[plain] = (plain ? bihargesh_plane_plain : bihargesh_plane)(
          many[plain], MANY, many_marks[0], MANY_CELLS, many_marks[1], MANY_CELLS, many_sizes[0], MANY_CELLS, many_sizes[1], MANY_CELLS, many_blocks,
          MANY_CELLS, many_tiles, 3, many_keep, MANY_CELLS, table, LEN(table), many_settings, 11, places[plain], 1, both[plain], 2);
    }
    same("a plane drawn by chance", answers[0], -(int32_t)(k % 9));
    same("the plain engine's answer", answers[1], answers[0]);
    same("its place", (long long)places[1][0], (long long)places[0][0]);
    same("its counts", memcmp(both[1], both[0], sizeof both[0]), 0);
    same("its plane", memcmp(many[1], many[0], sizeof many[0]), 0);
    changed += both[0][1];
  }
  same("samples were changed", changed > 10000, 1);
}

/* ---- that record, run again */

static uint8_t again[35];
static int32_t replay_settings[4];

/* the record of three edges, the first of them twice */
static void again_anew(void) {
  static const uint8_t bytes[35] = {'E', 'D', 'G', 1, 0, 8, 0, 0, 0, 0, 3, 8, 0, 40, 0, 12, 0, 0, 0, 0, 1, 8, 0, 40, 0, 8, 0, 0, 0, 0, 3, 8, 0, 40, 0};
  static const int32_t numbers[4] = {6, 1, 24, 8};
  plane_anew();
  memcpy(again, bytes, sizeof again);
  memcpy(replay_settings, numbers, sizeof numbers);
}

static int32_t run_again(size_t length, size_t settings_len) {
  return bihargesh_replay(plane, LEN(plane), again, length, keep, keep_count, replay_settings, settings_len, place, 1, counts, 2);
}

static void refused_again(const char *what, size_t length, size_t settings_len, int32_t want, size_t at) {
  memcpy(lent, plane, sizeof plane);
  same(what, run_again(length, settings_len), want);
  none(what);
  same(what, (long long)place[0], (long long)at);
  same("the plane as lent", memcmp(plane, lent, sizeof plane), 0);
  again_anew();
}

static void replays(void) {
  again_anew();
  same("the record of one edge", run_again(15, 4), 0);
  same("stored and changed by a record", counts[0] == 64 && counts[1] == 56, 1);
  same("place as lent", (long long)place[0], 77);
  memcpy(lent, plane, sizeof plane);
  again_anew();
  same("plane", run_plane(11), 0);
  same("the plane of the run that wrote it", memcmp(plane, lent, sizeof plane), 0);
  again_anew();
  memcpy(lent, plane, sizeof plane);
  same("a header alone", run_again(5, 4), 0);
  none("a header alone");
  same("the plane as lent", memcmp(plane, lent, sizeof plane), 0);
  same("an edge twice", run_again(35, 4), 0);
  again_anew();
  for (size_t n = 0; n <= 25; n++) {
    if (n < 5) refused_again("no header", n, 4, -BIHARGESH_BAD_HEADER, 0);
    else if ((n - 5) % 10 != 0) refused_again("a cut entry", n, 4, -BIHARGESH_CUT_ENTRY, (n - 5) / 10);
    else same("a whole record", run_again(n, 4), 0), again_anew();
  }
  for (int k = 0; k < 5; k++) {
    again[k]++;
    refused_again("another mark or version", 15, 4, -11, 0);
  }
  again[19] = 2;
  refused_again("direction 2", 35, 4, -BIHARGESH_BAD_ENTRY, 1);
  again[20] = 8;
  refused_again("pair 8", 35, 4, -13, 1);
  again[22] = 9;
  refused_again("q 2312", 35, 4, -13, 1);
  again[24] = 4;
  refused_again("side 1064", 35, 4, -13, 1);
  again[10] = 8;
  refused_again("a cut entry before a bad one", 24, 4, -12, 1);
  again[15] = 2;
  refused_again("no room", 35, 4, -BIHARGESH_NO_ROOM, 1);
  again[17] = 1;
  refused_again("no room for four lines", 35, 4, -7, 1);
  plane[90] = 256;
  refused_again("sample 256", 5, 4, -8, 90);
  replay_settings[BIHARGESH_REPLAY_DEPTH] = 9;
  refused_again("depth 9", 0, 4, -1, 0);
  replay_settings[BIHARGESH_REPLAY_STRIDE] = 23;
  refused_again("stride 23", 0, 4, -2, 0);
  replay_settings[BIHARGESH_REPLAY_ROWS] = 2;
  refused_again("a row too few", 0, 4, -3, 0);
  refused_again("three numbers", 0, 3, -BIHARGESH_BAD_LENGTH, 0);
}

/* ---- kept cells in the same plane: the edge filters samples 0 to 15, cells 0 to 3 */

static uint16_t unkept[96], one_kept[96];

/* A run with one cell kept: its samples stay, the others are those of the run that keeps none, and the stores into it are not counted. */
static void kept_cell(int cell) {
  size_t changed = 0;
  again_anew();
  same("no cell kept", run_plane(11), 0);
  memcpy(unkept, plane, sizeof plane);
  again_anew();
  memcpy(lent, plane, sizeof plane);
  keep[cell] = 1;
  same("a cell kept", run_plane(11), 0);
  memcpy(one_kept, plane, sizeof plane);
  for (int k = 0; k < 96; k++) {
    same("a sample beside a kept cell", plane[k], k % 24 / 4 == cell ? lent[k] : unkept[k]);
    changed += plane[k] != lent[k];
  }
  same("stored beside a kept cell", (long long)counts[0], cell < 4 ? 48 : 64);
  same("changed beside a kept cell", (long long)counts[1], (long long)changed);
}

/* The record of a run with the cell kept is that of the run without, and gives the run's plane with the same mark alone. */
static void kept_record(int cell) {
  again_anew();
  keep[cell] = 1;
  same("a record with a cell kept", record_plane(record, 16, 11), 15);
  same("its bytes", memcmp(record, again, 15), 0);
  same("its plane", memcmp(plane, one_kept, sizeof plane), 0);
  again_anew();
  keep[cell] = 1;
  same("run again with the cell kept", run_again(15, 4), 0);
  same("the same plane", memcmp(plane, one_kept, sizeof plane), 0);
  again_anew();
  same("run again with no cell kept", run_again(15, 4), 0);
  same("another plane", memcmp(plane, one_kept, sizeof plane) != 0, cell < 4);
}

static void kept_cells(void) {
  for (int cell = 0; cell < 6; cell++) {
    kept_cell(cell);
    kept_record(cell);
  }
  again_anew();
  memcpy(lent, plane, sizeof plane);
  memset(keep, 1, sizeof keep);
  same("every cell kept", run_plane(11), 0);
  none("every cell kept");
  same("the plane as lent", memcmp(plane, lent, sizeof plane), 0);
  plane_anew();
  keep[6] = 9;
  keep_count = 7;
  same("an entry beyond is not tested", run_plane(11), 0);
  plane_anew();
  keep[3] = 2;
  refused_plane("keep mark 2", 11, -BIHARGESH_BAD_CELL, 3);
  keep[3] = hedge[2] = 2;
  refused_plane("the first bad cell", 11, -6, 2);
  keep[5] = 255;
  refused_record("keep mark 255", 16, 11, -6, 5);
  keep[5] = 2;
  vedge[1] = 1;
  refused_plane("a keep mark before room", 11, -6, 5);
  keep_count = 5;
  refused_plane("five keep marks", 11, -BIHARGESH_BAD_LENGTH, 0);
  keep_count = 0;
  refused_plane("no keep marks", 11, -3, 0);
  keep_count = 5;
  refused_record("five keep marks", 16, 11, -3, 0);
  again_anew();
  keep_count = 5;
  refused_again("five keep marks", 15, 4, -BIHARGESH_BAD_LENGTH, 0);
  keep[4] = 2;
  again[20] = 8;
  refused_again("an entry before a keep mark", 35, 4, -BIHARGESH_BAD_ENTRY, 1);
  keep[4] = 2;
  again[15] = 2;
  refused_again("a keep mark before room", 35, 4, -BIHARGESH_BAD_CELL, 4);
  keep[4] = 2;
  refused_again("a keep mark with no entry", 5, 4, -6, 4);
}

/* ---- a kept rectangle in a plane of 3 rows of 4 cells, with one entry more that stays */

static uint8_t kept[13];

/* The rectangle's marks are want, row by row; the second cell was kept before. */
static void rectangle(const char *what, int32_t row, int32_t col, int32_t high, int32_t wide, const char *want) {
  const int32_t settings[BIHARGESH_KEEP_RECTANGLE_SETTINGS] = {4, 3, row, col, high, wide};
  memset(kept, 0, sizeof kept);
  kept[1] = 1;
  kept[12] = 9;
  place[0] = 77;
  same(what, bihargesh_keep_rectangle(kept, LEN(kept), settings, 6, place, 1), 0);
  for (int k = 0; k < 12; k++) same(what, kept[k], want[k] - '0');
  same(what, kept[12] == 9 && place[0] == 77, 1);
}

/* It is refused with its place, and the marks stay. */
static void bad_rectangle(const char *what, const int32_t *settings, size_t settings_len, size_t count, int32_t want, size_t at) {
  uint8_t before[13];
  memcpy(before, kept, sizeof kept);
  place[0] = 77;
  same(what, bihargesh_keep_rectangle(kept, count, settings, settings_len, place, 1), want);
  same(what, (long long)place[0], (long long)at);
  same(what, memcmp(kept, before, sizeof kept), 0);
}

static void rectangles(void) {
  const int32_t most = INT32_MAX;
  int32_t settings[6] = {4, 3, 0, 0, 3, 4};
  rectangle("a rectangle", 1, 1, 2, 3, "010001110111");
  rectangle("two rows of one column", 0, 2, 2, 1, "011000100000");
  rectangle("one row of two columns", 0, 2, 1, 2, "011100000000");
  rectangle("cut at the right", 1, 3, 1, 9, "010000010000");
  rectangle("cut below", 2, 0, 9, 1, "010000001000");
  rectangle("the whole plane", 0, 0, most, most, "111111111111");
  rectangle("beyond the plane", 3, 4, most, most, "010000000000");
  rectangle("far beyond it", most, most, most, most, "010000000000");
  rectangle("no rows", 0, 0, 0, 4, "010000000000");
  rectangle("no columns", 0, 0, 3, 0, "010000000000");
  for (int k = 2; k < 6; k++) {
    int32_t lent_number = settings[k];
    settings[k] = -1;
    bad_rectangle("a negative number", settings, 6, 13, -BIHARGESH_BAD_SIZE, 0);
    bad_rectangle("a negative number before the length", settings, 6, 0, -2, 0);
    settings[k] = lent_number;
  }
  bad_rectangle("five numbers", settings, 5, 13, -BIHARGESH_BAD_LENGTH, 0);
  bad_rectangle("eleven marks", settings, 6, 11, -3, 0);
  kept[7] = 2;
  bad_rectangle("a bad mark", settings, 6, 13, -BIHARGESH_BAD_CELL, 7);
  kept[7] = 0;
  settings[0] = 0;
  bad_rectangle("no columns of cells", settings, 6, 13, -2, 0);
  settings[0] = 1025;
  bad_rectangle("1025 columns of cells", settings, 6, 13, -2, 0);
  same("no place wanted", bihargesh_keep_rectangle(kept, 13, settings, 6, NULL, 0), -2);
}

/* ---- grids of 16 by 16 cells, with one entry more that stays; the last list is that of the keep marks */

static uint8_t marks[5][257];
static uint16_t cells[1025];

static int32_t run_tx(const uint16_t *leaves, size_t count, int32_t cap) {
  int32_t settings[6] = {16, 16, 0, 0, cap, cap};
  memset(marks, 9, sizeof marks);
  return bihargesh_tx_grid(leaves, count, NULL, 0, marks[0], 257, marks[1], 257, marks[2], 257, marks[3], 257, marks[4], 257, settings, 6, place, 1);
}

/* no cell is kept, and the entry beyond stays */
static void none_kept(const char *what) {
  for (int k = 0; k < 257; k++) same(what, marks[4][k], k < 256 ? 0 : 9);
}

static uint8_t by_numbers[5][257];

/* the same leaves as records: the same answer, place and marks */
static void same_by_records(const char *what, const struct bihargesh_leaf *leaves, size_t count, const struct bihargesh_leaf *skips, size_t skipped,
                            size_t settings_len, int32_t want, size_t at) {
  int32_t settings[6] = {16, 16, 0, 0, 8, 8};
  uint16_t numbers[2][8];
  size_t place_by_numbers[1] = {7};
  for (size_t k = 0; k < count; k++) memcpy(numbers[0] + 4 * k, (uint16_t[4]){leaves[k].row, leaves[k].col, leaves[k].w, leaves[k].h}, 8);
  for (size_t k = 0; k < skipped; k++) memcpy(numbers[1] + 4 * k, (uint16_t[4]){skips[k].row, skips[k].col, skips[k].w, skips[k].h}, 8);
  memset(by_numbers, 9, sizeof by_numbers);
  memset(marks, 9, sizeof marks);
  place[0] = 7;
  same(what,
       bihargesh_tx_grid(numbers[0], 4 * count, numbers[1], 4 * skipped, by_numbers[0], 257, by_numbers[1], 257, by_numbers[2], 257, by_numbers[3], 257,
                         by_numbers[4], 257, settings, settings_len, place_by_numbers, 1),
       want);
  same(what,
       bihargesh_tx_grid_leaves(leaves, count, skips, skipped, marks[0], 257, marks[1], 257, marks[2], 257, marks[3], 257, marks[4], 257, settings,
                                settings_len, place, 1),
       want);
  same(what, memcmp(marks, by_numbers, sizeof marks), 0);
  same(what, (long long)place[0], (long long)at);
  same(what, (long long)place_by_numbers[0], (long long)at);
}

static void leaf_records(void) {
  struct bihargesh_leaf good[2] = {{0, 0, 16, 16}, {8, 8, 4096 + 8, 8}}, bad[2] = {{0, 0, 16, 16}, {0, 0, 16, 3}}, flagged[1] = {{0, 0, 4096 + 4, 4}};
  same("the size of a leaf", sizeof *good, 8);
  same_by_records("two leaves", good, 2, NULL, 0, 6, 0, 7);
  same("a mark at 8", marks[0][8], 1);
  same("an entry beyond", marks[2][256], 9);
  none_kept("keep marks of leaf records");
  same_by_records("a leaf under a skip leaf", good, 1, good, 1, 6, 0, 7);
  same("index 4", marks[3][255], 4);
  same_by_records("no leaves", NULL, 0, NULL, 0, 6, 0, 7);
  same_by_records("a bad leaf record", bad, 2, NULL, 0, 6, -BIHARGESH_BAD_LEAF, 1);
  same_by_records("a skip leaf with 4096", good, 2, flagged, 1, 6, -BIHARGESH_BAD_LEAF, 0);
  same_by_records("five settings", good, 2, NULL, 0, 5, -BIHARGESH_BAD_LENGTH, 0);
  same("the marks as lent", marks[1][0] == 9 && marks[4][0] == 9, 1);
  same("255 keep marks", bihargesh_tx_grid_leaves(good, 2, NULL, 0, marks[0], 257, marks[1], 257, marks[2], 257, marks[3], 257, marks[4], 255,
                                                  (int32_t[6]){16, 16, 0, 0, 8, 8}, 6, place, 1), -3);
  same("the marks as lent", marks[0][0] == 9 && marks[4][254] == 9, 1);
}

static void grids(void) {
  uint16_t cut[4] = {0, 0, 16, 16}, whole[4] = {0, 0, 4096 + 16, 16}, bad[8] = {0, 0, 16, 16, 0, 0, 3, 16};
  same("a leaf with cap 8", run_tx(cut, 4, 8), 0);
  for (int k = 0; k < 16; k++) same("marks at 0 and 8", marks[0][k], k == 0 || k == 8);
  same("index 3", marks[2][255], 3);
  same("an entry beyond", marks[2][256], 9);
  none_kept("keep marks of leaves");
  same("a whole leaf", run_tx(whole, 4, 8), 0);
  for (int k = 0; k < 16; k++) same("a mark at 0", marks[0][k], k == 0);
  same("index 4", marks[3][255], 4);
  same("a bad leaf", run_tx(bad, 8, 8), -9);
  same("the second", (long long)place[0], 1);
  same("a cut list", run_tx(cut, 3, 8), -3);
  same("cap 3", run_tx(cut, 4, 3), -5);
  same("the marks as lent", marks[1][0] == 9 && marks[4][0] == 9, 1);
  same("255 keep marks", bihargesh_tx_grid(cut, 4, NULL, 0, marks[0], 257, marks[1], 257, marks[2], 257, marks[3], 257, marks[4], 255,
                                           (int32_t[6]){16, 16, 0, 0, 8, 8}, 6, place, 1), -BIHARGESH_BAD_LENGTH);
  same("the marks as lent", marks[0][0] == 9 && marks[4][254] == 9, 1);

  uint16_t blocks[4] = {10, 20, 30, 40};
  int32_t settings[5] = {32, 32, 0, 0, 2};
  cells[1024] = 7;
  same("qindex", bihargesh_qindex_grid(blocks, 4, cells, LEN(cells), settings, 5, place, 1), 0);
  same("cell 0, 15", cells[15], 10);
  same("cell 0, 16", cells[16], 20);
  same("cell 16, 0", cells[16 * 32], 30);
  same("cell 31, 31", cells[1023], 40);
  same("an entry beyond", cells[1024], 7);
  settings[4] = 0;
  same("no superblocks across", bihargesh_qindex_grid(blocks, 4, cells, LEN(cells), settings, 5, place, 1), -2);
  same("no superblock", bihargesh_qindex_grid(blocks, 0, cells, LEN(cells), (int32_t[5]){32, 32, 0, 0, 2}, 5, place, 1), -3);
  same("four numbers", bihargesh_qindex_grid(blocks, 4, cells, LEN(cells), settings, 4, place, 1), -BIHARGESH_BAD_LENGTH);
}

/* ---- a frame of 24 by 8 samples with chroma of 12 by 4, held to bihargesh_plane on the grids that it built */

static uint16_t luma[192], u[128], v[128], blocks_of[12], chroma_blocks_of[8];
static uint8_t luma_grid[4][12], chroma_grid[4][8];
static const uint8_t all_open[12];

static int32_t run_frame(const int32_t *settings, size_t settings_len) {
  static const uint16_t leaves[8] = {0, 0, 2, 2, 0, 2, 4, 2};
  uint16_t blocks[1] = {index_of_side_40()};
  for (int k = 0; k < 192; k++) luma[k] = k % 24 < 8 ? 100 : 108;
  for (int k = 0; k < 128; k++) u[k] = v[k] = k % 16 < 4 ? 100 : 108;
  v[5] = 109;
  return bihargesh_frame(luma, LEN(luma), u, LEN(u), v, LEN(v), luma_grid[0], 12, luma_grid[1], 12, luma_grid[2], 12, luma_grid[3], 12, blocks_of,
                         LEN(blocks_of), chroma_grid[0], 8, chroma_grid[1], 8, chroma_grid[2], 8, chroma_grid[3], 8, chroma_blocks_of,
                         LEN(chroma_blocks_of), table, LEN(table), blocks, 1, leaves, 8, leaves, 8, NULL, 0, NULL, 0, NULL, 0, all_open, 12, all_open, 8, settings,
                         settings_len, place, 1, counts, 2);
}

static void frames(void) {
  static const int32_t numbers[15] = {24, 8, 1, 1, 1, 1, 8, 0, 0, 24, 16, 16, 16, 16, 16};
  static const int32_t luma_numbers[11] = {6, 2, 24, 24, 8, 16, 16, 0, 8, 0, 0}, chroma_numbers[11] = {4, 2, 16, 12, 4, 8, 8, 1, 8, 0, 0};
  uint16_t one[192], other[128];
  int32_t bad[15];
  size_t of_frame[2], of_planes[2] = {0, 0};
  same("frame", run_frame(numbers, 15), 0);
  memcpy(of_frame, counts, sizeof counts);
  for (int k = 0; k < 192; k++) one[k] = k % 24 < 8 ? 100 : 108;
  same("luma alone", bihargesh_plane(one, 192, luma_grid[0], 12, luma_grid[1], 12, luma_grid[2], 12, luma_grid[3], 12, blocks_of, 12, NULL, 0,
                                     all_open, 12, table, 352, luma_numbers, 11, place, 1, counts, 2), 0);
  for (int n = 0; n < 2; n++) of_planes[n] += counts[n];
  for (int which = 0; which < 2; which++) {
    for (int k = 0; k < 128; k++) other[k] = k % 16 < 4 ? 100 : 108;
    if (which == 1) other[5] = 109;
    same("u or v alone", bihargesh_plane(other, 128, chroma_grid[0], 8, chroma_grid[1], 8, chroma_grid[2], 8, chroma_grid[3], 8, chroma_blocks_of, 8,
                                         NULL, 0, all_open, 8, table, 352, chroma_numbers, 11, place, 1, counts, 2), 0);
    for (int n = 0; n < 2; n++) of_planes[n] += counts[n];
  }
  same("a frame's counts are its planes'", memcmp(of_frame, of_planes, sizeof of_frame), 0);
  same("luma as alone", memcmp(luma, one, sizeof one), 0);
  same("v as alone", memcmp(v, other, sizeof other), 0);
  same("luma was filtered", luma[7] > 100 && luma[8] < 108, 1);
  same("u was filtered", u[3] > 100 && u[4] < 108, 1);
  same("fourteen numbers", run_frame(numbers, 14), -BIHARGESH_BAD_LENGTH);
  none("fourteen numbers");
  memcpy(bad, numbers, sizeof bad);
  bad[5] = 2;
  same("chroma_deblock 2", run_frame(bad, 15), -2);
  none("chroma_deblock 2");
  bad[6] = 9;
  same("depth 9", run_frame(bad, 15), -1);
  same("luma as lent", luma[7], 100);
  memcpy(bad, numbers, sizeof bad);
  bad[4] = 0;
  bad[10] = -1;
  same("no chroma", run_frame(bad, 15), 0);
  same("stored without chroma", counts[0] < of_frame[0], 1);
  same("u as lent", u[3], 100);
  bad[13] = 3;
  same("chroma's cap still counts", run_frame(bad, 15), -5);
  none("chroma's cap");
}

/* ---- a frame of 64 by 16 samples with chroma of 32 by 8, two leaves side by side, and a tile where the second begins */

enum { WIDE_CELLS = 16 * 4, WIDE_CHROMA_CELLS = 8 * 2 };

static uint16_t wide[16 * WIDE_CELLS], wide_u[16 * WIDE_CHROMA_CELLS], wide_v[16 * WIDE_CHROMA_CELLS], wide_blocks[2][WIDE_CELLS];
static uint8_t wide_grid[2][4][WIDE_CELLS], wide_keep[2][WIDE_CELLS];

/* n rows of 100 before the middle and 108 from there on */
static void halves(uint16_t *samples, int stride, int n) {
  for (int k = 0; k < stride * n; k++) samples[k] = k % stride < stride / 2 ? 100 : 108;
}

static int32_t run_wide(int32_t has_chroma, int32_t chroma_deblock, const uint16_t *starts, size_t count, const uint16_t *chroma, size_t chroma_count) {
  static const uint16_t leaves[8] = {0, 0, 8, 4, 0, 8, 8, 4};
  const int32_t settings[15] = {64, 16, 1, 1, has_chroma, chroma_deblock, 8, 0, 0, 64, 32, 16, 16, 16, 16};
  uint16_t blocks[1] = {index_of_side_40()};
  uint8_t(*l)[WIDE_CELLS] = wide_grid[0], (*c)[WIDE_CELLS] = wide_grid[1];
  halves(wide, 64, 16);
  halves(wide_u, 32, 8);
  halves(wide_v, 32, 8);
  place[0] = 77;
  return bihargesh_frame(wide, LEN(wide), wide_u, LEN(wide_u), wide_v, LEN(wide_v), l[0], WIDE_CELLS, l[1], WIDE_CELLS, l[2], WIDE_CELLS, l[3], WIDE_CELLS,
                         wide_blocks[0], WIDE_CELLS, c[0], WIDE_CHROMA_CELLS, c[1], WIDE_CHROMA_CELLS, c[2], WIDE_CHROMA_CELLS, c[3], WIDE_CHROMA_CELLS,
                         wide_blocks[1], WIDE_CHROMA_CELLS, table, LEN(table), blocks, 1, leaves, 8, leaves, 8, NULL, 0, starts, count, chroma,
                         chroma_count, wide_keep[0], WIDE_CELLS, wide_keep[1], WIDE_CHROMA_CELLS, settings, 15, place, 1, counts, 2);
}

/* A plane of the frame is bihargesh_plane's with the same tile starts and keep marks, and another than with no tile starts. */
static void wide_plane(const char *what, int kind, const uint16_t *got, int stride, int rows, const uint16_t *starts, size_t count) {
  const int32_t settings[11] = {stride / 4, rows / 4, stride, stride, rows, 16 >> kind, 16 >> kind, kind, 8, 0, 0};
  size_t cells = (size_t)(stride * rows / 16), samples = 16 * cells;
  uint8_t(*g)[WIDE_CELLS] = wide_grid[kind];
  uint16_t alone[16 * WIDE_CELLS];
  for (int tiled = 0; tiled < 2; tiled++) {
    halves(alone, stride, rows);
    same(what, bihargesh_plane(alone, samples, g[0], cells, g[1], cells, g[2], cells, g[3], cells, wide_blocks[kind], cells, starts, tiled ? count : 0,
                               wide_keep[kind], cells, table, LEN(table), settings, 11, place, 1, counts, 2), 0);
    same(what, memcmp(alone, got, samples * sizeof *got) == 0, tiled);
  }
}

static void bad_wide(const char *what, int32_t has_chroma, int32_t chroma_deblock, uint16_t start, uint16_t chroma_start) {
  same(what, run_wide(has_chroma, chroma_deblock, &start, 1, &chroma_start, 1), -BIHARGESH_BAD_SETTING);
  none(what);
  same(what, place[0] == 0 && wide[31] == 100 && wide_u[16] == 108, 1);
}

static void tiled_frames(void) {
  const uint16_t start[1] = {8}, chroma_start[1] = {4}, bad[1] = {8};
  size_t whole[2];
  same("a frame of two tiles", run_wide(1, 1, start, 1, chroma_start, 1), 0);
  memcpy(whole, counts, sizeof whole);
  wide_plane("luma of two tiles", 0, wide, 64, 16, start, 1);
  wide_plane("u of two tiles", 1, wide_u, 32, 8, chroma_start, 1);
  wide_plane("v of two tiles", 1, wide_v, 32, 8, chroma_start, 1);
  same("a frame of one tile", run_wide(1, 1, NULL, 0, NULL, 0), 0);
  same("more is stored in one tile", counts[0] > whole[0] && whole[0] > 0, 1);
  bad_wide("luma's tile at column 16", 1, 1, 16, 4);
  bad_wide("luma's tile at column 0", 0, 0, 0, 4);
  bad_wide("chroma's tile at column 8", 1, 1, 8, 8);
  for (int flag = 0; flag < 2; flag++) {
    same("chroma's tiles are not tested", run_wide(flag, 1 - flag, start, 1, bad, 1), 0);
    same("u as lent", wide_u[15] == 100 && wide_u[16] == 108, 1);
  }
}

/* ---- kept cells of that frame: the two before the middle in luma's second row, the one after it in chroma's first */

static void kept_frames(void) {
  const uint16_t start[1] = {8}, chroma_start[1] = {4};
  uint8_t before[2][WIDE_CELLS], grids_before[2][4][WIDE_CELLS];
  size_t open;
  same("a frame with no cell kept", run_wide(1, 1, start, 1, chroma_start, 1), 0);
  open = counts[0];
  wide_keep[0][22] = wide_keep[0][23] = wide_keep[1][4] = 1;
  memcpy(before, wide_keep, sizeof before);
  same("a frame with kept cells", run_wide(1, 1, start, 1, chroma_start, 1), 0);
  same("less is stored", counts[0] > 0 && counts[0] < open, 1);
  same("the keep marks as lent", memcmp(wide_keep, before, sizeof before), 0);
  same("luma's kept cells", wide[4 * 64 + 31] == 100 && wide[4 * 64 + 24] == 100 && wide[31] > 100 && wide[4 * 64 + 32] < 108, 1);
  same("chroma's kept cell", wide_u[16] == 108 && wide_v[3 * 32 + 16] == 108 && wide_u[15] > 100 && wide_u[4 * 32 + 16] < 108, 1);
  wide_plane("luma with kept cells", 0, wide, 64, 16, start, 1);
  wide_plane("u with a kept cell", 1, wide_u, 32, 8, chroma_start, 1);
  wide_plane("v with a kept cell", 1, wide_v, 32, 8, chroma_start, 1);
  memset(wide_grid, 7, sizeof wide_grid);
  memcpy(grids_before, wide_grid, sizeof wide_grid);
  wide_keep[1][5] = 2;
  same("chroma's keep mark 2", run_wide(1, 1, start, 1, chroma_start, 1), -BIHARGESH_BAD_CELL);
  same("its cell", (long long)place[0], 5);
  none("chroma's keep mark 2");
  wide_keep[0][40] = 3;
  same("luma's keep mark before it", run_wide(1, 1, start, 1, chroma_start, 1), -6);
  same("its cell", (long long)place[0], 40);
  same("the grids as lent", memcmp(wide_grid, grids_before, sizeof wide_grid), 0);
  wide_keep[0][40] = 0;
  for (int flag = 0; flag < 2; flag++) same("chroma's keep marks are not tested", run_wide(flag, 1 - flag, start, 1, chroma_start, 1), 0);
  memset(wide_keep, 0, sizeof wide_keep);
}

/* ---- offsets: document 01's c = 600 at depth 10 with b 2 and classes 2, 1 */

static void offsets(void) {
  uint16_t luma[2] = {600, 700}, target[2] = {5, 5};
  uint8_t flags[1] = {0};
  int8_t by[64] = {0};
  int32_t settings[16] = {2, 1, 0, 0, 10, 2, -9, 9, 0, 1, 2, 1, 0, 0, 0, 2};
  by[41] = -10;
  by[37] = 3;
  same("a block that is kept", bihargesh_ccso(luma, 2, target, 2, flags, 1, by, 64, settings, 16, place, 1), 0);
  same("its sample", target[0], 5);
  flags[0] = 1;
  same("a block", bihargesh_ccso(luma, 2, target, 2, flags, 1, by, 64, settings, 16, place, 1), 0);
  same("sample 5, offset -10, scale 2", target[0], 0);
  same("sample 5, offset 3, scale 2", target[1], 11);
  by[3] = 8;
  same("offset 8", bihargesh_ccso(luma, 2, target, 2, flags, 1, by, 64, settings, 16, place, 1), -5);
  by[3] = 0;
  target[1] = 1024;
  place[0] = 0;
  same("sample 1024", bihargesh_ccso(luma, 2, target, 2, flags, 1, by, 64, settings, 16, place, 1), -8);
  same("its place", (long long)place[0], 1);
  settings[15] = -1;
  same("band log2 -1", bihargesh_ccso(luma, 2, target, 2, flags, 1, by, 64, settings, 16, place, 1), -5);
  same("fifteen numbers", bihargesh_ccso(luma, 2, target, 2, flags, 1, by, 64, settings, 15, place, 1), -BIHARGESH_BAD_LENGTH);
}

/* ---- the published step table */

static void published_steps(void) {
  static const uint32_t first[25] = {64, 40, 41, 43, 44, 45, 47, 48, 49, 51, 52, 54, 55, 57, 59, 60, 62, 64, 66, 68, 70, 72, 74, 76, 78};
  uint32_t list[353];
  memset(list, 7, sizeof list);
  same("a short list", bihargesh_steps(list, 351), -BIHARGESH_BAD_LENGTH);
  same("the list as lent", list[0], 0x07070707);
  same("steps", bihargesh_steps(list, LEN(list)), 0);
  for (int k = 0; k < 352; k++) same("a step", list[k], k < 25 ? first[k] : k > 255 ? list[255] : 2 * list[k - 24]);
  same("an entry beyond", list[352], 0x07070707);
  same("a plane's list", bihargesh_steps(table, LEN(table)), 0);
}

/* ---- the enums of the settings count what each function takes */

static void settings_counted(void) {
  same("a plane's settings", BIHARGESH_PLANE_SETTINGS, 11);
  same("a TU grid's settings", BIHARGESH_TX_GRID_SETTINGS, 6);
  same("a kept rectangle's settings", BIHARGESH_KEEP_RECTANGLE_SETTINGS, 6);
  same("a qindex grid's settings", BIHARGESH_QINDEX_GRID_SETTINGS, 5);
  same("a frame's settings", BIHARGESH_FRAME_SETTINGS, 15);
  same("CCSO's settings", BIHARGESH_CCSO_SETTINGS, 16);
  same("a replay's settings", BIHARGESH_REPLAY_SETTINGS, 4);
  same("the last refusal", BIHARGESH_BAD_ENTRY, 13);
}

int main(void) {
  thresholds();
  segments();
  refusals();
  short_counts();
  planes();
  records();
  tile_starts();
  plain_engine();
  replays();
  kept_cells();
  rectangles();
  grids();
  leaf_records();
  frames();
  tiled_frames();
  kept_frames();
  offsets();
  published_steps();
  settings_counted();
  printf("C: %d checks, %d failures\n", checks, failures);
  return failures != 0;
}
