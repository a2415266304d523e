#!/usr/bin/env python3
# Instructions by callgrind, which do not depend on the load: of the sums alone those of one kernel; of whole calls those of one round,
# which is the call and its withdraw (what two rounds take more than one). For each place of the matrix, and beside C row by row.
# usage: counts.py PROGRAM [N..]
import re, subprocess, sys
from runs import SIZES, places

program = sys.argv[1]
whole = program == 'calls'
HALF = 8


def counted(n, job, rounds):
    function = 'void by_boost::rows<*' if job.startswith('boost') else job
    words = [str(rounds)] if whole else []
    run = subprocess.run(['valgrind', '--tool=callgrind', '--callgrind-out-file=/dev/null', f'--toggle-collect={function}', f'./{program}0.run', str(n), 'once', job, *words, str(HALF)], capture_output=True, text=True)
    found = re.search(r'Collected : (\d+)', run.stderr)
    if run.returncode or not found: sys.exit(f'counts.py: {job}: {run.stderr}')
    return int(found[1])


def instructions(n, job): return counted(n, job, 2) - counted(n, job, 1) if whole else counted(n, job, 0)


listed = subprocess.run([f'./{program}0.run', '12', '1', str(HALF)], capture_output=True, text=True).stdout.splitlines()
jobs = [line.split()[:2] for line in listed if not (whole and ' boost_' in line)]
order = list(dict.fromkeys(group for group, job in jobs))
jobs.sort(key=lambda words: order.index(words[0]))
for n in map(int, sys.argv[2:] or SIZES):
    print(f'n = {n}, half band {HALF}: instructions, for each place, and as a ratio to C row by row')
    base = {}
    for group, job in jobs:
        total = instructions(n, job)
        base.setdefault(group, total)
        print(f'{job:36} {total:12} {total / places(job, n, HALF):8.1f} {total / base[group]:6.2f}')
