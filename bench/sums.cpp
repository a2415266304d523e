// The sums of a product by Rattle, plain C and Boost, in one process and on the same data.
//   sums N ROUNDS [HALF-BAND]       times each kernel, and compares the sums
//   sums N once JOB [HALF-BAND]     one kernel once, for callgrind
// EMPTIES=m puts m empty cells into each matrix, and every third time one into x; Boost is then left out.
#include <cstdlib>
#include <cstring>
#include <random>
#include "boost.hpp"
#include "timing.hpp"

using Answer = std::function<SumRecord(usize)>;
struct Jobs {
  std::vector<Job> timed;
  std::vector<Answer> answers;
  void add(const std::string &layout, const std::string &name, std::function<void()> call, Answer answer) {
    timed.push_back({layout, name, [] {}, [=](int calls) { for (int c = 0; c < calls; c++) call(); }, {}});
    answers.push_back(answer);
  }
};

// The forms in which records and sums cross are assumed on both sides: stop if they are not what is assumed here.
static void check_forms() {
  static_assert(sizeof(Record) == 8 && sizeof(SumRecord) == 24, "records of 8 bytes, sums of 24");
  const Record run[4] = {{2, 3}, {1, 0}, {-4, 4}, {0, 0}}, xs[2] = {{5, 7}, {-1, 2}};
  SumRecord sums[2];
  memset(sums, 0x55, sizeof sums);
  bool answered = bepyndo_dense_by_columns(run, 4, 2, xs, 2, sums, 2);
  const unsigned char *bytes = (const unsigned char *)sums;
  i64 least, greatest;
  memcpy(&least, bytes + 8, 8);
  memcpy(&greatest, bytes + 16, 8);
  if (!answered || bytes[0] != 1 || least != 2 || greatest != 29 || bytes[24] != 0) {
    fprintf(stderr, "sums: a sum does not cross as assumed (flag at byte 0, least at 8, greatest at 16, 24 bytes in all): "
                    "flag %d, least %lld, greatest %lld, flag of the empty sum %d\n", bytes[0], (long long)least, (long long)greatest, bytes[24]);
    abort();
  }
}

// Boost's jobs, over intervals that are made once from the same records.
template <class I>
static void add_boost(Jobs &jobs, const std::string &mode, usize n, usize k, const std::vector<Record> &full,
                      const std::vector<Record> &banded, const std::vector<Record> &half_full, const std::vector<Record> &xs) {
  auto made = [](const std::vector<Record> &run) {
    auto *intervals = new std::vector<I>;
    for (auto &r : run) intervals->emplace_back(r.lower, r.upper);
    return intervals;
  };
  auto *x = made(xs);
  auto add = [&](const char *layout, const std::vector<Record> &records, auto from, auto to, auto place) {
    auto *run = made(records), *sums = new std::vector<I>(n);
    jobs.add(layout, std::string("boost_") + layout + "_" + mode, [=] { by_boost::rows(n, run->data(), x->data(), sums->data(), from, to, place); },
      [=](usize i) { return SumRecord{true, (i64)(*sums)[i].lower(), (i64)(*sums)[i].upper()}; });
  };
  auto zero = [](usize) -> usize { return 0; };
  add("dense", full, zero, [=](usize) { return n; }, [=](usize i, usize j) { return j * n + i; });
  add("band", banded, [=](usize i) { return i > k ? i - k : 0; }, [=](usize i) { return std::min(n, i + k + 1); }, [=](usize i, usize j) { return j * (2 * k + 1) + k + i - j; });
  add("packed", half_full, zero, [](usize i) { return i + 1; }, [=](usize i, usize j) { return i + j * (2 * n - j - 1) / 2; });
}

int main(int count, char **words) {
  if (count < 3) { fprintf(stderr, "usage: sums N ROUNDS [HALF-BAND], or sums N once JOB [HALF-BAND]\n"); return 2; }
  const usize n = atoi(words[1]);
  const bool once = !strcmp(words[2], "once");
  if (!once) check_forms();
  const char *only = once ? words[3] : nullptr;
  const char *half = count > 3 + once ? words[3 + once] : "8";
  const usize k = std::min<usize>(atoi(half), n - 1), stride = 2 * k + 1;
  const char *empties = getenv("EMPTIES");

  std::mt19937 random(1);
  auto cell = [&] { i32 lower = (i32)(random() % 2001) - 1000; return Record{lower, lower + (i32)(random() % 10)}; };
  std::vector<Record> full(n * n), banded(stride * n), half_full(n * (n + 1) / 2), xs(n);
  for (auto *run : {&full, &banded, &half_full, &xs}) for (auto &r : *run) r = cell();
  // each way in which a record can be empty
  const Record none[3] = {{1, 0}, {-LIMIT - 1, 5}, {5, LIMIT + 1}};
  for (int e = 0; empties && e < atoi(empties); e++) {
    for (auto *run : {&full, &banded, &half_full}) (*run)[random() % run->size()] = none[random() % 3];
    if (e % 3 == 2) xs[random() % n] = none[random() % 3];
  }

  Jobs jobs;
  auto sums = [&] { return new std::vector<SumRecord>(n, SumRecord{true, 1, -1}); };
#define JOB(layout, name, ...) { auto *s = sums(); jobs.add(layout, name, [&, s] { __VA_ARGS__; }, [s](usize i) { return (*s)[i]; }); }
#define BOTH(layout, run, ...) \
  JOB(#layout, "plain_" #layout "_by_rows", plain_##layout##_by_rows(run.data(), __VA_ARGS__, xs.data(), s->data())) \
  JOB(#layout, "plain_" #layout "_by_columns", plain_##layout##_by_columns(run.data(), __VA_ARGS__, xs.data(), s->data()))
#define RATTLES(layout, run, ...) \
  JOB(#layout, "bepyndo_" #layout "_by_columns", bepyndo_##layout##_by_columns(run.data(), run.size(), __VA_ARGS__, xs.data(), n, s->data(), n)) \
  JOB(#layout, "bepyndo_" #layout "_by_rows", bepyndo_##layout##_by_rows(run.data(), run.size(), __VA_ARGS__, xs.data(), n, s->data(), n))
  BOTH(dense, full, n) RATTLES(dense, full, n)
  BOTH(band, banded, n, k) RATTLES(band, banded, n, k, stride)
  BOTH(packed, half_full, n) RATTLES(packed, half_full, n)
  BOTH(symmetric, half_full, n) RATTLES(symmetric, half_full, n)
  BOTH(transposed, full, n) RATTLES(transposed, full, n)

  if (!empties) {
    add_boost<by_boost::Kept>(jobs, "mode_each", n, k, full, banded, half_full, xs);
    add_boost<by_boost::Free>(jobs, "mode_once", n, k, full, banded, half_full, xs);
  }

  if (once) {
    for (auto &job : jobs.timed) if (job.name == only) { job.run(1); return 0; }
    fprintf(stderr, "sums: no job %s\n", only);
    return 2;
  }
  time_in_turn(jobs.timed, atoi(words[2]));
  int differing = 0;
  for (usize j = 0; j < jobs.timed.size(); j++) {
    const Job &job = jobs.timed[j];
    const Answer *base = &jobs.answers[base_of(jobs.timed, job) - jobs.timed.data()];
    bool same = true;
    for (usize i = 0; i < n; i++) {
      SumRecord a = (*base)(i), b = jobs.answers[j](i);
      same &= a.filled == b.filled && (!a.filled || (a.least == b.least && a.greatest == b.greatest));
    }
    differing += !same;
    print_line(jobs.timed, job, same);
  }
  return differing != 0;
}
