// Whole calls in plain C: the checks in their order, the new column in the draft, each row worked row by row and rounded out, and what a
// refusal answers. Structural zeros are skipped; an empty operand empties its cell, also one that stands under a structural zero.
#include "calls.h"
#include "plain.h"

// Each loop is written once and compiled for each storage by itself.
#define INLINE static inline __attribute__((always_inline))
// Each call is a function by itself, so that no round can be left out since its draft is withdrawn.
#define APART static __attribute__((noinline))

static const Record EMPTY = {1, 0};
static const AnswerRecord GRANTED = {0, 0, 0};

INLINE AnswerRecord refused(u32 number, usize row, bool upper) { return (AnswerRecord){number, row, upper}; }

INLINE void clear(Record *run, usize n) {
  for (usize i = 0; i < n; i++) run[i] = EMPTY;
}

// Rows of a column as they read: a broken record is written as the empty one.
INLINE void copy(const Record *from, Record *to, usize first, usize end) {
  for (usize i = first; i < end; i++) to[i] = is_filled(from[i]) ? from[i] : EMPTY;
}

// ---- matrices, square with n rows. A band has k places below the diagonal and k above, packed is the lower triangle.

typedef enum { DENSE, BAND, PACKED } Storage;
typedef struct { const Record *run; usize n, k, stride; } Matrix;

INLINE bool is_fit(Storage storage, Matrix m, usize length) {
  if (m.n > 1024) return 0;
  switch (storage) {
    case DENSE: return 1 <= m.n && m.n * m.n <= length;
    case BAND: { usize places; return m.k <= 1023 && 2 * m.k + 1 <= m.stride && !__builtin_mul_overflow(m.stride, m.n, &places) && places <= length; }
    default: return length == m.n * (m.n + 1) / 2;
  }
}

INLINE usize place(Storage storage, Matrix m, usize i, usize j) {
  switch (storage) {
    case DENSE: return j * m.n + i;
    case BAND: return m.k + i - j + j * m.stride;
    default: return i + j * (2 * m.n - j - 1) / 2;
  }
}

// the columns of row i outside which it is 0
INLINE usize first_column(Storage storage, Matrix m, usize i) { return storage == BAND && i > m.k ? i - m.k : 0; }
INLINE usize end_column(Storage storage, Matrix m, usize i) {
  switch (storage) {
    case DENSE: return m.n;
    case BAND: return i + m.k + 1 < m.n ? i + m.k + 1 : m.n;
    default: return i + 1;
  }
}

// Σ m_ij·x_j over some columns, the x_j being filled; false where an entry is empty
INLINE bool row_sum(Storage storage, Matrix m, usize i, usize from, usize to, const Record *xs, Bounds *sum) {
  i64 least = 0, greatest = 0;
  for (usize j = from; j < to; j++) {
    Record a = m.run[place(storage, m, i, j)];
    if (!is_filled(a)) return 0;
    Bounds p = times(bounds(a), bounds(xs[j]));
    least += p.least;
    greatest += p.greatest;
  }
  *sum = (Bounds){least, greatest};
  return 1;
}

// ---- rounding out

INLINE i64 rounded_down(i64 a, i64 by) {
  i64 quotient = a / by, rest = a % by;
  return quotient - (rest != 0 && (rest < 0) != (by < 0));
}

INLINE i64 rounded_up(i64 a, i64 by) {
  i64 quotient = a / by, rest = a % by;
  return quotient + (rest != 0 && (rest < 0) == (by < 0));
}

// The cell with two bounds, unless one is beyond the limit; the lower is looked at first. A call that is refused empties the draft.
INLINE AnswerRecord keep(i64 lower, i64 upper, usize row, Record *cell) {
  if (lower < -LIMIT || lower > LIMIT) return refused(10, row, 0);
  if (upper < -LIMIT || upper > LIMIT) return refused(10, row, 1);
  *cell = (Record){(i32)lower, (i32)upper};
  return GRANTED;
}

// beta·r + alpha·Σ, brought back to steps
INLINE AnswerRecord weighted(const Asked *asked, Record r, Bounds sum, usize row, Record *cell) {
  Bounds kept = times(bounds(asked->beta), bounds(r)), worked = times(bounds(asked->alpha), sum);
  i64 by = asked->scale * asked->scale;
  i64 least = kept.least * asked->scale + worked.least, greatest = kept.greatest * asked->scale + worked.greatest;
  return keep(rounded_down(least, by), rounded_up(greatest, by), row, cell);
}

INLINE bool factors_filled(const Asked *asked) { return is_filled(asked->alpha) && is_filled(asked->beta); }

INLINE AnswerRecord past_limit(AnswerRecord answer, Record *draft, usize rows) {
  clear(draft, rows);
  return answer;
}

// ---- calls

INLINE bool have_lengths(const Asked *asked, usize cells_length, usize draft_length) {
  return cells_length == asked->rows * asked->columns && draft_length == asked->rows;
}

APART AnswerRecord dot(usize row, usize other, const Asked *asked, SLICE(const Record, cells), SLICE(Record, draft)) {
  usize rows = asked->rows;
  if (!have_lengths(asked, cells_length, draft_length)) return refused(3, 0, 0);
  if (asked->target >= asked->columns || asked->operand >= asked->columns || other >= asked->columns) return refused(4, 0, 0);
  if (row >= rows) return refused(5, row, 0);
  const Record *rs = cells + asked->target * rows, *xs = cells + asked->operand * rows, *ys = cells + other * rows;
  copy(rs, draft, 0, rows);
  bool filled = factors_filled(asked) && is_filled(rs[row]);
  i64 least = 0, greatest = 0;
  for (usize j = 0; filled && j < rows; j++) {
    Record x = xs[j], y = ys[j];
    filled = is_filled(x) && is_filled(y);
    Bounds p = times(bounds(x), bounds(y));
    least += p.least;
    greatest += p.greatest;
  }
  if (!filled) {
    draft[row] = EMPTY;
    return GRANTED;
  }
  AnswerRecord answer = weighted(asked, rs[row], (Bounds){least, greatest}, row, &draft[row]);
  return answer.number ? past_limit(answer, draft, rows) : GRANTED;
}

INLINE AnswerRecord product(Storage storage, Matrix m, usize run_length, const Asked *asked, SLICE(const Record, cells), SLICE(Record, draft)) {
  usize rows = asked->rows;
  if (!have_lengths(asked, cells_length, draft_length)) return refused(3, 0, 0);
  if (asked->target >= asked->columns || asked->operand >= asked->columns) return refused(4, 0, 0);
  if (!is_fit(storage, m, run_length)) m.n = 0;
  if (m.n > rows) return refused(7, 0, 0);
  const Record *rs = cells + asked->target * rows, *xs = cells + asked->operand * rows;
  bool filled = factors_filled(asked) && all_filled(xs, m.n);
  for (usize i = 0; i < m.n; i++) {
    Bounds sum;
    if (!filled || !is_filled(rs[i]) || !row_sum(storage, m, i, first_column(storage, m, i), end_column(storage, m, i), xs, &sum)) {
      draft[i] = EMPTY;
      continue;
    }
    AnswerRecord answer = weighted(asked, rs[i], sum, i, &draft[i]);
    if (answer.number) return past_limit(answer, draft, rows);
  }
  copy(rs, draft, m.n, rows);
  return GRANTED;
}

// The sums of all rows first, column by column, as the matrix lies in memory.
APART AnswerRecord product_dense_by_columns(Matrix m, usize run_length, const Asked *asked, SLICE(const Record, cells), SLICE(Record, draft)) {
  usize rows = asked->rows;
  if (!have_lengths(asked, cells_length, draft_length)) return refused(3, 0, 0);
  if (asked->target >= asked->columns || asked->operand >= asked->columns) return refused(4, 0, 0);
  if (!is_fit(DENSE, m, run_length)) m.n = 0;
  if (m.n > rows) return refused(7, 0, 0);
  const Record *rs = cells + asked->target * rows, *xs = cells + asked->operand * rows;
  bool filled = factors_filled(asked) && all_filled(xs, m.n);
  SumRecord sums[1024];
  for (usize i = 0; i < m.n; i++) sums[i] = (SumRecord){filled && is_filled(rs[i]), 0, 0};
  for (usize j = 0; filled && j < m.n; j++) {
    Bounds x = bounds(xs[j]);
    const Record *column = m.run + j * m.n;
    for (usize i = 0; i < m.n; i++) {
      if (!is_filled(column[i])) { sums[i].filled = 0; continue; }
      Bounds p = times(bounds(column[i]), x);
      sums[i].least += p.least;
      sums[i].greatest += p.greatest;
    }
  }
  for (usize i = 0; i < m.n; i++) {
    if (!sums[i].filled) { draft[i] = EMPTY; continue; }
    AnswerRecord answer = weighted(asked, rs[i], (Bounds){sums[i].least, sums[i].greatest}, i, &draft[i]);
    if (answer.number) return past_limit(answer, draft, rows);
  }
  copy(rs, draft, m.n, rows);
  return GRANTED;
}

// Of the matrix the lower triangle: the rows solved before stand in the draft. The four quotients are divided once each; of the quotients
// rounded down the least is the lower bound, of those rounded up the greatest is the upper one.
INLINE AnswerRecord solve(Storage storage, Matrix m, usize run_length, const Asked *asked, SLICE(const Record, cells), SLICE(Record, draft)) {
  usize rows = asked->rows;
  if (!have_lengths(asked, cells_length, draft_length)) return refused(3, 0, 0);
  if (asked->target >= asked->columns) return refused(4, 0, 0);
  if (!is_fit(storage, m, run_length)) m.n = 0;
  if (m.n > rows) return refused(7, 0, 0);
  const Record *rs = cells + asked->target * rows;
  for (usize i = 0; i < m.n; i++) {
    Record d = m.run[place(storage, m, i, i)];
    if (is_filled(d) && d.lower <= 0 && 0 <= d.upper) return refused(8, i, 0);
  }
  bool filled = is_filled(asked->alpha); // and every row solved before
  for (usize i = 0; i < m.n; i++) {
    Record d = m.run[place(storage, m, i, i)];
    Bounds sum;
    filled = filled && is_filled(rs[i]) && is_filled(d) && row_sum(storage, m, i, first_column(storage, m, i), i, draft, &sum);
    if (!filled) {
      draft[i] = EMPTY;
      continue;
    }
    Bounds right = times(bounds(asked->alpha), bounds(rs[i]));
    i64 least = right.least - sum.greatest, greatest = right.greatest - sum.least;
    i64 lower = min(min(rounded_down(least, d.lower), rounded_down(least, d.upper)), min(rounded_down(greatest, d.lower), rounded_down(greatest, d.upper)));
    i64 upper = max(max(rounded_up(least, d.lower), rounded_up(least, d.upper)), max(rounded_up(greatest, d.lower), rounded_up(greatest, d.upper)));
    AnswerRecord answer = keep(lower, upper, i, &draft[i]);
    if (answer.number) return past_limit(answer, draft, rows);
  }
  copy(rs, draft, m.n, rows);
  return GRANTED;
}

// ---- opening a sheet, rounds of a call that is withdrawn, and the call posted

INLINE AnswerRecord open(const Asked *asked, SLICE(Record, own), SLICE(Record, draft)) {
  usize rows = asked->rows, columns = asked->columns;
  if (asked->scale < 1 || asked->scale > 100000) return refused(1, 0, 0);
  if (rows < 1 || rows > 1024 || columns < 1 || columns > 64 || rows * columns > 4096) return refused(2, 0, 0);
  if (!have_lengths(asked, own_length, draft_length)) return refused(3, 0, 0);
  clear(own, own_length);
  clear(draft, draft_length);
  return GRANTED;
}

INLINE AnswerRecord post(const Asked *asked, SLICE(Record, cells), SLICE(Record, draft)) {
  if (!have_lengths(asked, cells_length, draft_length)) return refused(3, 0, 0);
  __builtin_memcpy(cells + asked->target * asked->rows, draft, asked->rows * sizeof(Record));
  clear(draft, draft_length);
  return GRANTED;
}

INLINE AnswerRecord withdraw(const Asked *asked, usize cells_length, SLICE(Record, draft)) {
  if (!have_lengths(asked, cells_length, draft_length)) return refused(3, 0, 0);
  clear(draft, draft_length);
  return GRANTED;
}

#define WORK(name, parameters, call) \
AnswerRecord plain_##name(parameters, const Asked *asked, MEMORY) { \
  AnswerRecord answer = open(asked, own, own_length, draft, draft_length); \
  if (answer.number) return answer; \
  for (usize round = 0; round < asked->rounds; round++) { \
    answer = call; \
    if (!answer.number) answer = withdraw(asked, cells_length, draft, draft_length); \
  } \
  answer = call; \
  return answer.number ? answer : post(asked, cells, cells_length, draft, draft_length); \
}
#define COMMA ,
#define LENT asked, cells, cells_length, draft, draft_length
#define RUN SLICE(const Record, run)

#define OVER(call, layout) APART AnswerRecord call##_##layout(Matrix m, usize run_length, const Asked *asked, SLICE(const Record, cells), SLICE(Record, draft))
OVER(product, dense) { return product(DENSE, m, run_length, LENT); }
OVER(product, band) { return product(BAND, m, run_length, LENT); }
OVER(product, packed) { return product(PACKED, m, run_length, LENT); }
OVER(solve, dense) { return solve(DENSE, m, run_length, LENT); }
OVER(solve, band) { return solve(BAND, m, run_length, LENT); }
OVER(solve, packed) { return solve(PACKED, m, run_length, LENT); }

WORK(dot, usize row COMMA usize other, dot(row, other, LENT))
WORK(product_dense, RUN COMMA usize n, product_dense((Matrix){run, n, 0, n}, run_length, LENT))
WORK(product_dense_by_columns, RUN COMMA usize n, product_dense_by_columns((Matrix){run, n, 0, n}, run_length, LENT))
WORK(product_band, RUN COMMA usize n COMMA usize k COMMA usize stride, product_band((Matrix){run, n, k, stride}, run_length, LENT))
WORK(product_packed, RUN COMMA usize n, product_packed((Matrix){run, n, 0, n}, run_length, LENT))
WORK(solve_dense, RUN COMMA usize n, solve_dense((Matrix){run, n, 0, n}, run_length, LENT))
WORK(solve_band, RUN COMMA usize n COMMA usize k COMMA usize stride, solve_band((Matrix){run, n, k, stride}, run_length, LENT))
WORK(solve_packed, RUN COMMA usize n, solve_packed((Matrix){run, n, 0, n}, run_length, LENT))
