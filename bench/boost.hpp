// The same sums by Boost.Interval over double. All bounds here are whole numbers below 2^53, so Boost's answers are exact and
// can be compared. It has no empty cell in these policies, so it runs on full data alone.
#pragma once
#include <boost/numeric/interval.hpp>
#include "records.h"

namespace by_boost {
using namespace boost::numeric;
using Rounding = interval_lib::rounded_arith_opp<double>;
using Checking = interval_lib::checking_base<double>;
// as one uses it by default: each operation saves the rounding mode and sets it again
using Kept = interval<double, interval_lib::policies<interval_lib::save_state<Rounding>, Checking>>;
// the rounding mode is set once, before the loops: the fastest way to use Boost that its manual describes
using Free = interval_lib::unprotect<Kept>::type;

template <class I, class Place, class From, class To>
__attribute__((noinline)) void rows(usize n, const I *run, const I *xs, I *sums, From from, To to, Place place) {
  [[maybe_unused]] typename I::traits_type::rounding mode;
  for (usize i = 0; i < n; i++) {
    I sum(0.0);
    for (usize j = from(i); j < to(i); j++) sum += run[place(i, j)] * xs[j];
    sums[i] = sum;
  }
}
}
