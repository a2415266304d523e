// Whole calls by Boost.Interval over double, in steps as the records are: the column copied, each row worked, rounded out to whole steps and
// held against the limit, and the draft withdrawn. It has no empty cell and looks at no lengths. All sums here are whole and below
// 2^53, so each cell comes out as in exact numbers and can be compared: a quotient that is rounded outward to a double lies between the
// same two whole numbers.
#pragma once
#include <cmath>
#include "boost.hpp"

namespace by_boost {
template <class I> struct Memory { usize n; double scale; I alpha, beta; const I *column, *other; I *draft; };

// false where a bound is beyond the limit
template <class I> inline bool keep(const I &quotient, I &cell) {
  double lower = std::floor(quotient.lower()), upper = std::ceil(quotient.upper());
  if (lower < -LIMIT || lower > LIMIT || upper < -LIMIT || upper > LIMIT) return false;
  cell = I(lower, upper);
  return true;
}

template <class I> inline bool weighted(const Memory<I> &m, const I &sum, usize i) {
  return keep<I>((m.beta * m.column[i] * m.scale + m.alpha * sum) / (m.scale * m.scale), m.draft[i]);
}

template <class I> __attribute__((noinline)) bool dot(const Memory<I> &m, usize row) {
  [[maybe_unused]] typename I::traits_type::rounding mode;
  for (usize i = 0; i < m.n; i++) m.draft[i] = m.column[i];
  I sum(0.0);
  for (usize j = 0; j < m.n; j++) sum += m.other[j] * m.column[j];
  return weighted(m, sum, row);
}

template <class I, class From, class To, class Place>
__attribute__((noinline)) bool product(const Memory<I> &m, const I *run, From from, To to, Place place) {
  [[maybe_unused]] typename I::traits_type::rounding mode;
  for (usize i = 0; i < m.n; i++) {
    I sum(0.0);
    for (usize j = from(i); j < to(i); j++) sum += run[place(i, j)] * m.other[j];
    if (!weighted(m, sum, i)) return false;
  }
  return true;
}

template <class I, class From, class Place>
__attribute__((noinline)) bool solve(const Memory<I> &m, const I *run, From from, Place place) {
  [[maybe_unused]] typename I::traits_type::rounding mode;
  for (usize i = 0; i < m.n; i++)
    if (zero_in(run[place(i, i)])) return false;
  for (usize i = 0; i < m.n; i++) {
    I rest = m.alpha * m.column[i];
    for (usize j = from(i); j < i; j++) rest -= run[place(i, j)] * m.draft[j];
    if (!keep<I>(rest / run[place(i, i)], m.draft[i])) return false;
  }
  return true;
}

template <class I> inline void withdraw(const Memory<I> &m) {
  for (usize i = 0; i < m.n; i++) m.draft[i] = I(0.0);
}
}
