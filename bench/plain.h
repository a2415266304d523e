// What the C kernels share: cells and products of cells.
#ifndef PLAIN_H
#define PLAIN_H
#include "records.h"

static inline bool is_filled(Record r) { return r.lower <= r.upper && r.lower >= -LIMIT && r.upper <= LIMIT; }
static inline i64 min(i64 a, i64 b) { return a < b ? a : b; }
static inline i64 max(i64 a, i64 b) { return a > b ? a : b; }

typedef struct { i64 least, greatest; } Bounds;

static inline Bounds bounds(Record r) { return (Bounds){r.lower, r.upper}; }

static inline Bounds times(Bounds a, Bounds b) {
  i64 p = a.least * b.least, q = a.least * b.greatest, r = a.greatest * b.least, s = a.greatest * b.greatest;
  return (Bounds){min(min(p, q), min(r, s)), max(max(p, q), max(r, s))};
}

static inline bool all_filled(const Record *xs, usize n) {
  for (usize j = 0; j < n; j++)
    if (!is_filled(xs[j])) return 0;
  return 1;
}
#endif
