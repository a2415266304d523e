// Compares whole calls by Rattle with those in C, on random data: empty cells, broken records, diagonals that hold 0, figures that are
// unfit, memory of other lengths, and what else a call can be refused for. The answer is compared, and all that is left: the sheet's own
// cells, the cells and the draft. Prints how often each answer came, so that what the data reach is seen.
//   agree SETS
#include <cstdio>
#include <cstdlib>
#include <map>
#include "calls.hpp"

// each way in which a record is empty or broken
static const Record NONE[] = {{1, 0}, {-LIMIT - 1, 5}, {5, LIMIT + 1}, {9, -9}, {INT32_MIN, INT32_MAX}};

static void empty_some(Random &random, Run &run, int some) {
  for (int e = 0; e < some && !run.empty(); e++) run[random.between(0, (i32)run.size() - 1)] = NONE[random.between(0, 4)];
}

static void spoil(Random &random, Matrices &m) {
  for (Run *run : {&m.dense, &m.band, &m.packed}) {
    if (random.one_in(4)) empty_some(random, *run, random.one_in(4) ? random.between(1, (i32)m.n + 1) : 1);
    if (random.one_in(15) && !run->empty()) run->pop_back();
    if (random.one_in(15)) run->push_back({1, 1});
  }
}

// Most often what can be granted, and sometimes each of what cannot.
struct Set {
  Asked asked;
  usize row, other;
  Matrices factors, triangles;
  Memory memory;

  explicit Set(int number) {
    Random random(number);
    const usize rows = number % 200 == 199 ? 1024 : random.one_in(10) ? random.between(41, 200) : random.between(1, 40);
    const usize columns = random.between(1, std::min<i32>(4, 4096 / (i32)rows));
    const i32 size = random.among({3, 100, 3000, LIMIT}), width = random.among({0, 3, 50, size});
    auto column = [&]() -> usize { return random.one_in(25) ? columns : random.between(0, (i32)columns - 1); };
    asked = {random.among<i64>({1, 10, 100, 1000, 100000}), rows, columns, column(), column(), random.cell(size, width), random.cell(size, width), (usize)random.between(0, 2)};
    row = random.one_in(25) ? rows : random.between(0, (i32)rows - 1);
    other = column();

    const usize n = random.one_in(12) ? random.between(0, (i32)rows + 1) : rows;
    const usize half = random.one_in(20) ? random.between(0, 1030) : random.between(0, std::min<i32>((i32)n + 1, 12));
    const usize stride = 2 * half + 1 + (random.one_in(3) ? random.between(0, 2) : 0);
    factors = random.matrices(n, half, stride, size, width);
    // small beside their diagonals, so that many solutions stay below the limit
    triangles = random.matrices(n, half, stride, random.among({1, 3, size}), random.among({0, 1, width}));
    const i32 diagonal = random.among({50, 2000, 100000}), zeros = random.among({0, 0, (i32)n, 3 * (i32)n});
    set_diagonals(triangles, [&] {
      if (zeros && random.one_in(zeros)) return Record{-random.between(0, 5), random.between(0, 5)};
      return random.one_in(3) ? Record{-diagonal - random.between(0, 9), -diagonal} : random.cell_from(diagonal, 9);
    });
    spoil(random, factors);
    spoil(random, triangles);

    memory = {random.cells(rows * columns, 5, 5), random.cells(rows * columns, size, width), random.cells(rows, 5, 5)};
    if (random.one_in(2)) empty_some(random, memory.cells, random.one_in(3) ? random.between(1, (i32)rows) : 1);
    for (Run *run : {&memory.own, &memory.cells, &memory.draft})
      if (random.one_in(60)) run->push_back({1, 1});
    for (Record *factor : {&asked.alpha, &asked.beta})
      if (random.one_in(40)) *factor = NONE[random.between(0, 4)];
    if (random.one_in(4)) asked.alpha = {0, 0};
    if (random.one_in(60)) asked.scale = random.among<i64>({0, -5, 100001});
    if (random.one_in(60)) asked.columns = random.among<usize>({0, 65, 5000});
    if (random.one_in(80)) asked.rows = random.among<usize>({0, 1025});
  }
};

static std::string words_for(AnswerRecord answer, const Asked &asked, const Run &cells) {
  if (answer.number) return "refused by " + std::to_string(answer.number) + (answer.upper ? ", upper" : "");
  const auto column = cells.begin() + asked.target * asked.rows;
  const usize empty = std::count(column, column + asked.rows, Record{1, 0});
  return empty == 0 ? "granted, full" : empty == asked.rows ? "granted, empty" : "granted, partly empty";
}

int main(int count, char **words) {
  if (count < 2) { fprintf(stderr, "usage: agree SETS\n"); return 2; }
  long compared = 0, differing = 0;
  std::map<std::string, std::map<std::string, long>> seen;
  for (int number = 0; number < atoi(words[1]); number++) {
    const Set set(number);
    auto calls = calls_over(set.factors, set.triangles, set.row, set.other);
    calls.push_back({"product_dense_by_columns", product_by_columns(set.factors), calls[1].bepyndo});
    for (auto &call : calls) {
      Memory a = set.memory, b = set.memory;
      const AnswerRecord p = call.plain(set.asked, a), q = call.bepyndo(set.asked, b);
      compared++;
      seen[call.name][words_for(p, set.asked, a.cells)]++;
      if (p.number == q.number && p.row == q.row && p.upper == q.upper && a.own == b.own && a.cells == b.cells && a.draft == b.draft) continue;
      differing++;
      printf("set %d, %s: C answers %u %zu %d, Rattle %u %zu %d\n", number, call.name.c_str(), p.number, p.row, p.upper, q.number, q.row, q.upper);
    }
  }
  for (auto &[name, answers] : seen) {
    printf("%s:", name.c_str());
    for (auto &[answer, times] : answers) printf("  %s %ld", answer.c_str(), times);
    printf("\n");
  }
  printf("%ld whole calls compared with those in C, %ld differ\n", compared, differing);
  return differing != 0;
}
