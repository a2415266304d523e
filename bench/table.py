#!/usr/bin/env python3
# Medians over several runs of a program, each of which has medians over its rounds: the ratio of each job to the first of its group,
# which is C row by row, with the least and the greatest that a run gave; and how the time of a band grows.
# usage: table.py PROGRAM RUNS
import sys
from statistics import median
from runs import SIZES, load, places, runs

program, count = sys.argv[1], int(sys.argv[2])
print(f'{count} runs; {load()}')
times, groups = {}, {}
for n in SIZES: times[n], groups = runs(program, n, 8, count)
print(f'{"":36}' + ''.join(f'{f"n = {n}":>22}' for n in SIZES))
for group in dict.fromkeys(groups.values()):
    jobs = [job for job in groups if groups[job] == group]
    for job in jobs:
        cells = []
        for n in SIZES:
            ratios = [t[job] / t[jobs[0]] for t in times[n]]
            cells.append(f'{median(ratios):8.2f} ({min(ratios):.2f}-{max(ratios):.2f})'.rjust(22))
        print(f'{job:36}' + ''.join(cells))

print('\na band: ns of a call, and ns for each place in the band')
POINTS = ((64, 8), (1024, 2), (1024, 8), (1024, 32))
grown = {(1024, half): runs(program, 1024, half, count)[0] for half in (2, 32)}
grown[(1024, 8)], grown[(64, 8)] = times[1024], times[64]
for job in (j for j in groups if 'band' in j and not j.startswith('boost')):
    time = {point: median(t[job] for t in grown[point]) for point in POINTS}
    for n, half in POINTS:
        there = places(job, n, half)
        print(f'{job:36} n = {n:4}, half band {half:2}: {there:6} places {time[(n, half)]:9.0f} {time[(n, half)] / there:6.2f}')
    print(f'{"":36} from n = 64 to n = 1024, sixteen times the rows: {time[(1024, 8)] / time[(64, 8)]:.1f} times as long; the square would be 256')
print(load())
