// The same sums in plain C, compiled by the clang that compiles Rattle. Each layout has both orders: row by row, which is the
// loop of the definition, and column by column. Structural zeros are skipped; an empty operand empties the sum, also one that
// stands under a structural zero, so all of x is tested first.
#include "plain.h"

static void set_all(SumRecord *sums, usize n, bool filled) {
  for (usize i = 0; i < n; i++) sums[i] = (SumRecord){filled, 0, 0};
}

// One row over the columns from `from` to before `to`; PLACE is where column j of the row stands. An empty entry ends the row.
#define ROW(from, to, PLACE) \
  i64 least = 0, greatest = 0; bool filled = 1; \
  for (usize j = from; j < to; j++) { \
    Record a = run[PLACE]; \
    if (!is_filled(a)) { filled = 0; break; } \
    Bounds p = times(bounds(a), bounds(xs[j])); \
    least += p.least; greatest += p.greatest; \
  } \
  sums[i] = (SumRecord){filled, filled ? least : 0, filled ? greatest : 0};

// One column over the rows from `from` to before `to`; the bounds of an empty sum say nothing, and are added to all the same.
#define COLUMN(from, to, PLACE) \
  Record x = xs[j]; \
  for (usize i = from; i < to; i++) { \
    Record a = run[PLACE]; \
    if (!is_filled(a)) { sums[i].filled = 0; continue; } \
    Bounds p = times(bounds(a), bounds(x)); \
    sums[i].least += p.least; sums[i].greatest += p.greatest; \
  }

#define BY_ROWS(name, from, to, PLACE, ...) PLAIN(name##_by_rows, __VA_ARGS__) { \
  if (!all_filled(xs, n)) { set_all(sums, n, 0); return; } \
  for (usize i = 0; i < n; i++) { ROW(from, to, PLACE) } }

#define BY_COLUMNS(name, from, to, PLACE, ...) PLAIN(name##_by_columns, __VA_ARGS__) { \
  if (!all_filled(xs, n)) { set_all(sums, n, 0); return; } \
  set_all(sums, n, 1); \
  for (usize j = 0; j < n; j++) { COLUMN(from, to, PLACE) } }

#define CUT(i, k) (i > k ? i - k : 0)
#define REACH(i, k) (i + k + 1 < n ? i + k + 1 : n)
#define BAND_PLACE j * (2 * k + 1) + k + i - j
#define PACKED_PLACE(i, j) i + j * (2 * n - j - 1) / 2
#define MIRRORED_PLACE (i < j ? PACKED_PLACE(j, i) : PACKED_PLACE(i, j))

BY_ROWS(dense, 0, n, j * n + i, usize n)
BY_COLUMNS(dense, 0, n, j * n + i, usize n)
BY_ROWS(band, CUT(i, k), REACH(i, k), BAND_PLACE, usize n, usize k)
BY_COLUMNS(band, CUT(j, k), REACH(j, k), BAND_PLACE, usize n, usize k)
BY_ROWS(packed, 0, i + 1, PACKED_PLACE(i, j), usize n)
BY_COLUMNS(packed, j, n, PACKED_PLACE(i, j), usize n)
BY_ROWS(symmetric, 0, n, MIRRORED_PLACE, usize n)
BY_COLUMNS(symmetric, 0, n, MIRRORED_PLACE, usize n)
BY_ROWS(transposed, 0, n, i * n + j, usize n)
BY_COLUMNS(transposed, 0, n, i * n + j, usize n)
