// Jobs that are timed in turn, round by round, so that a change of the machine's load meets all of them.
#pragma once
#include <algorithm>
#include <chrono>
#include <cstdio>
#include <functional>
#include <string>
#include <vector>

struct Job {
  std::string group, name;
  std::function<void()> prepare;  // not timed
  std::function<void(int)> run;   // as many calls as is said
  std::vector<double> times;      // of one call, in ns
};

inline double now() { return std::chrono::duration<double, std::nano>(std::chrono::steady_clock::now().time_since_epoch()).count(); }

inline double median(std::vector<double> times) {
  std::sort(times.begin(), times.end());
  return times[times.size() / 2];
}

inline double timed(Job &job, int calls) {
  job.prepare();
  double from = now();
  job.run(calls);
  return now() - from;
}

// A round of a job is long enough for the clock: about half a millisecond of calls.
inline void time_in_turn(std::vector<Job> &jobs, int rounds) {
  std::vector<int> calls;
  for (auto &job : jobs) {
    timed(job, 2);
    calls.push_back(std::max(2, (int)(1e6 / timed(job, 2))));
  }
  for (int round = 0; round < rounds; round++)
    for (size_t j = 0; j < jobs.size(); j++) jobs[j].times.push_back(timed(jobs[j], calls[j]) / calls[j]);
}

// The first job of a group is what the others are compared with.
inline const Job *base_of(const std::vector<Job> &jobs, const Job &job) {
  for (auto &other : jobs) if (other.group == job.group) return &other;
  return nullptr;
}

// A line a job: group, job, median time of a call in ns, ratio to the first of the group, and whether its answers agree with that one's.
inline void print_line(const std::vector<Job> &jobs, const Job &job, bool same) {
  double time = median(job.times), base = median(base_of(jobs, job)->times);
  printf("%-14s %-34s %12.1f %8.3f %s\n", job.group.c_str(), job.name.c_str(), time, time / base, same ? "agrees" : "DIFFERS");
}
