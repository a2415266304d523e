// Times whole calls of a sheet by Rattle, plain C and Boost, in one process and on the same data: each call with its withdraw, and
// compares the posted columns.
//   calls N ROUNDS [HALF-BAND]           a line for each job
//   calls N once JOB ROUNDS [HALF-BAND]  one kernel once, with that many rounds in it, for callgrind
#include <cstdlib>
#include <cstring>
#include <map>
#include "boost_calls.hpp"
#include "calls.hpp"
#include "timing.hpp"

struct Posted { bool granted; Run column; };

template <class I> static std::vector<I> intervals(const Run &run) {
  std::vector<I> made;
  for (auto &r : run) made.emplace_back(r.lower, r.upper);
  return made;
}

// The forms in which structs cross are assumed on both sides: stop if they are not what is assumed here.
static void check_forms() {
  const Record run[1] = {{200, 300}};
  const Asked asked = {100, 1, 2, 0, 1, {100, 100}, {100, 100}, 1};
  Record own[2] = {{7, 7}, {7, 7}}, cells[2] = {{1, 2}, {10, 10}}, draft[1] = {{7, 7}};
  const AnswerRecord granted = bepyndo_product_dense(run, 1, 1, &asked, own, 2, cells, 2, draft, 1);
  const bool right = granted.number == 0 && cells[0] == Record{21, 32} && draft[0] == Record{1, 0} && own[1] == Record{1, 0};
  const AnswerRecord refused = bepyndo_dot(7, 0, &asked, own, 2, cells, 2, draft, 1);
  if (right && refused.number == 5 && refused.row == 7) return;
  fprintf(stderr, "calls: what crosses is not as assumed: [%d, %d], %u, %u, %zu\n", cells[0].lower, cells[0].upper, granted.number, refused.number, refused.row);
  abort();
}

// No cell of the timed data is empty, and no call is refused. The triangles have diagonals of 20 units and more, so that the solutions
// stay below the limit over 1,024 rows.
struct Benchmark {
  const usize n;
  const Asked asked;
  const usize row, other;
  Matrices factors, triangles;
  Run cells;
  std::vector<Job> jobs;
  std::vector<std::function<Posted()>> answers;

  Benchmark(usize n, usize half, Random random)
      : n(n), asked{100, n, 2, 0, 1, {200, 201}, {90, 100}, 0}, row(n / 2), other(0),
        factors(random.matrices(n, half, 2 * half + 1, 100, 3)), triangles(random.matrices(n, half, 2 * half + 1, 3, 1)), cells(random.cells(2 * n, 300, 9)) {
    set_diagonals(triangles, [&] { return random.cell_from(random.between(2000, 2100), 3); });
  }

  void add(const std::string &group, const std::string &name, const Kernel &kernel) {
    auto *memory = new Memory{Run(2 * n), cells, Run(n)};
    auto prepare = [=, this] { memory->cells = cells; };
    auto run = [=, this](int calls) {
      Asked told = asked;
      told.rounds = calls - 1;
      return kernel(told, *memory);
    };
    jobs.push_back({group, name, prepare, run, {}});
    answers.push_back([=] {
      prepare();
      const bool granted = run(1).number == 0;
      return Posted{granted, Run(memory->cells.begin(), memory->cells.begin() + memory->draft.size())};
    });
  }

  // Boost's column and factors are made intervals once, before.
  template <class I> void add_boost(const std::string &group, const std::string &mode, const std::function<bool(const by_boost::Memory<I> &)> &call) {
    auto *both = new std::vector<I>(intervals<I>(cells)), *draft = new std::vector<I>(n);
    const by_boost::Memory<I> memory = {n, (double)asked.scale, I(asked.alpha.lower, asked.alpha.upper), I(asked.beta.lower, asked.beta.upper), both->data(), both->data() + n, draft->data()};
    auto run = [=](int calls) {
      for (int c = 0; c < calls; c++) { call(memory); by_boost::withdraw(memory); }
    };
    jobs.push_back({group, "boost_" + group + "_" + mode, [] {}, run, {}});
    answers.push_back([=] {
      Posted posted = {call(memory), {}};
      for (auto &cell : *draft) posted.column.push_back({(i32)cell.lower(), (i32)cell.upper()});
      return posted;
    });
  }

  template <class I> void add_boosts(const std::string &mode) {
    const usize n = this->n, half = factors.half, stride = factors.stride, row = this->row;
    auto made = [](const Run &run) { return (new std::vector<I>(intervals<I>(run)))->data(); };
    auto dense = [=](usize i, usize j) { return j * n + i; };
    auto band = [=](usize i, usize j) { return half + i - j + j * stride; };
    auto packed = [=](usize i, usize j) { return packed_place(n, i, j); };
    auto first = [](usize) -> usize { return 0; };
    auto near = [=](usize i) { return i > half ? i - half : 0; };
    auto product = [&](const char *group, const Run &run, auto from, auto to, auto place) {
      const I *records = made(run);
      add_boost<I>(group, mode, [=](auto &memory) { return by_boost::product(memory, records, from, to, place); });
    };
    auto solve = [&](const char *group, const Run &run, auto from, auto place) {
      const I *records = made(run);
      add_boost<I>(group, mode, [=](auto &memory) { return by_boost::solve(memory, records, from, place); });
    };
    add_boost<I>("dot", mode, [=](auto &memory) { return by_boost::dot(memory, row); });
    product("product_dense", factors.dense, first, [=](usize) { return n; }, dense);
    product("product_band", factors.band, near, [=](usize i) { return std::min(n, i + half + 1); }, band);
    product("product_packed", factors.packed, first, [](usize i) { return i + 1; }, packed);
    solve("solve_dense", triangles.dense, first, dense);
    solve("solve_band", triangles.band, near, band);
    solve("solve_packed", triangles.packed, first, packed);
  }

  void add_all() {
    for (auto &call : calls_over(factors, triangles, row, other)) {
      add(call.name, "plain_" + call.name, call.plain);
      if (call.name == "product_dense") add(call.name, "plain_product_dense_by_columns", product_by_columns(factors));
      add(call.name, "bepyndo_" + call.name, call.bepyndo);
    }
    add_boosts<by_boost::Kept>("mode_each");
    add_boosts<by_boost::Free>("mode_once");
  }
};

int main(int count, char **words) {
  if (count < 3) { fprintf(stderr, "usage: calls N ROUNDS [HALF-BAND], or calls N once JOB ROUNDS [HALF-BAND]\n"); return 2; }
  const bool once = !strcmp(words[2], "once");
  const usize n = atoi(words[1]), half = std::min<usize>(count > 3 + 2 * once ? atoi(words[3 + 2 * once]) : 8, n - 1);
  if (!once) check_forms();
  Benchmark bench(n, half, Random(1));
  bench.add_all();
  auto &jobs = bench.jobs;
  if (once) {
    for (auto &job : jobs) if (job.name == words[3]) { job.prepare(); job.run(atoi(words[4]) + 1); return 0; }
    fprintf(stderr, "calls: no job %s\n", words[3]);
    return 2;
  }

  std::map<std::string, Posted> posted;
  for (usize j = 0; j < jobs.size(); j++) {
    Posted &own = posted[jobs[j].name] = bench.answers[j]();
    const bool full = std::none_of(own.column.begin(), own.column.end(), [](Record r) { return r.lower > r.upper; });
    if (!own.granted || !full) { fprintf(stderr, "calls: %s is refused on the timed data, or leaves an empty cell\n", jobs[j].name.c_str()); return 2; }
  }
  time_in_turn(jobs, atoi(words[2]));
  int differing = 0;
  for (auto &job : jobs) {
    const bool same = posted[job.name].column == posted[base_of(jobs, job)->name].column;
    print_line(jobs, job, same);
    differing += !same;
  }
  return differing != 0;
}
