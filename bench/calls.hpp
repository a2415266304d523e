// What the programs on whole calls share: the calls by Rattle and by C, each as one function over memory, and random data for them.
#pragma once
#include <algorithm>
#include <functional>
#include <random>
#include <string>
#include <vector>
#include "calls.h"

using Run = std::vector<Record>;
inline bool operator==(Record a, Record b) { return a.lower == b.lower && a.upper == b.upper; }

// What a call is supplied, and what it leaves.
struct Memory { Run own, cells, draft; };

using Kernel = std::function<AnswerRecord(const Asked &, Memory &)>;
struct Call { std::string name; Kernel plain, bepyndo; };

// Square matrices with n rows, one of each storage; the bands have `half` places below the diagonal and as many above.
struct Matrices { usize n, half, stride; Run dense, band, packed; };

inline usize packed_place(usize n, usize i, usize j) { return i + j * (2 * n - j - 1) / 2; }

// ---- the calls. What they are over is only referred to.

#define OF(run) run.data(), run.size()
#define BY(who, call, ...) [&](const Asked &asked, Memory &memory) { return who##_##call(__VA_ARGS__, &asked, OF(memory.own), OF(memory.cells), OF(memory.draft)); }
#define CALL_OVER(call, ...) Call{#call, BY(plain, call, __VA_ARGS__), BY(bepyndo, call, __VA_ARGS__)}

// The products are over `factors`, the solves over the lower triangles of `triangles`; a dot works out one row, with a second column.
inline std::vector<Call> calls_over(const Matrices &factors, const Matrices &triangles, const usize &row, const usize &other) {
  return {
    CALL_OVER(dot, row, other),
    CALL_OVER(product_dense, OF(factors.dense), factors.n),
    CALL_OVER(product_band, OF(factors.band), factors.n, factors.half, factors.stride),
    CALL_OVER(product_packed, OF(factors.packed), factors.n),
    CALL_OVER(solve_dense, OF(triangles.dense), triangles.n),
    CALL_OVER(solve_band, OF(triangles.band), triangles.n, triangles.half, triangles.stride),
    CALL_OVER(solve_packed, OF(triangles.packed), triangles.n),
  };
}

inline Kernel product_by_columns(const Matrices &factors) { return BY(plain, product_dense_by_columns, OF(factors.dense), factors.n); }

// ---- random data

struct Random {
  std::mt19937 numbers;
  explicit Random(unsigned seed) : numbers(seed) {}

  i32 between(i32 a, i32 b) { return a + (i32)(numbers() % (unsigned)(b - a + 1)); }
  bool one_in(int n) { return between(1, n) == 1; }
  template <class T> T among(std::initializer_list<T> few) { return few.begin()[between(0, (int)few.size() - 1)]; }

  Record cell_from(i32 lower, i32 width) { return {lower, std::min(LIMIT, lower + between(0, width))}; }
  Record cell(i32 size, i32 width) { return cell_from(between(-size, size), width); }
  Run cells(usize count, i32 size, i32 width) {
    Run run(count);
    for (auto &record : run) record = cell(size, width);
    return run;
  }
  Matrices matrices(usize n, usize half, usize stride, i32 size, i32 width) {
    return {n, half, stride, cells(n * n, size, width), cells(stride * n, size, width), cells(n * (n + 1) / 2, size, width)};
  }
};

inline void set_diagonals(Matrices &m, const std::function<Record()> &cell) {
  for (usize i = 0; i < m.n; i++) m.dense[i * m.n + i] = m.band[m.half + i * m.stride] = m.packed[packed_place(m.n, i, i)] = cell();
}
