# What tools/compare-blas and tools/compare-intervals share: a script for the program `replay` with all that it should print, and the
# comparison of many such cases with what it does print. The script and the answers are those of docs/REPLAY.md.
#
# A cell is None where it is empty, and else a pair of whole numbers of steps.
import argparse
import collections
import subprocess
import sys

LIMIT = 131071  # a bound beyond it, in steps, cannot be held


def word(cell):
    return "-" if cell is None else f"{cell[0]}..{cell[1]}"


def words(cells):
    return " ".join(map(word, cells))


class Sheet:
    # the script of one sheet, and what should be printed: an answer for each line, then the rows
    def __init__(self, scale, columns):
        self.columns = [list(column) for column in columns]
        self.script, self.answers = [], []
        self.drafted = None
        self.ask(f"open {scale} {len(columns[0])} {len(columns)}")
        for k, column in enumerate(columns):
            for i, cell in enumerate(column):
                if cell is not None:
                    self.ask(f"set {k} {i} {cell[0]} {cell[1]}")
        self.ask("begin")

    def ask(self, line, answer="granted"):
        self.script.append(line)
        self.answers.append(answer)

    # The cells that a call works out are handed over by row, in working order. The first with a bound beyond the limit refuses it.
    def call(self, line, target, worked, post):
        column = list(self.columns[target])
        for row, cell in worked:
            for bound, steps in zip(("lower", "upper"), cell or ()):
                if abs(steps) > LIMIT:
                    self.ask(line, f"refused 10 {line.split()[0]} {target} {row} {bound}")
                    return "refused by 10"
            column[row] = cell
        self.ask(line)
        if post:
            self.ask("post")
            self.columns[target] = column
        else:
            self.drafted = (target, column)
        return "granted"

    def printed(self):
        lines = self.answers + [words(row) for row in zip(*self.columns)]
        if self.drafted:
            lines += [f"draft {self.drafted[0]}", words(self.drafted[1])]
        return lines

    def difference(self, found):
        return first_difference(self.script, self.printed(), found)


def run(program, script):
    text = "".join(line + "\n" for line in script)
    ended = subprocess.run([program], input=text, stdout=subprocess.PIPE, text=True, timeout=600)
    lines = ended.stdout.split("\n")
    if ended.returncode != 0 or lines[-1] != "":
        lines.append(f"(status {ended.returncode})")
    return lines if lines[-1] else lines[:-1]


def first_difference(script, expected, found):
    for place in range(max(len(expected), len(found))):
        here, there = (lines[place] if place < len(lines) else "(nothing)" for lines in (expected, found))
        if here != there:
            asked = script[place] if place < len(script) else f"row {place - len(script)} of the end"
            return f"{asked[:80]}: expected {here[:200]}, replay prints {there[:200]}"
    return None


def arguments(says, count):
    parser = argparse.ArgumentParser(description=says)
    parser.add_argument("--program", default="crates/replay/out/replay", metavar="PATH", help="the program replay (default: %(default)s)")
    parser.add_argument("--count", type=int, default=count, metavar="N", help="how many cases (default: %(default)s)")
    parser.add_argument("--from", type=int, default=0, metavar="SEED", dest="first", help="the number of the first case")
    parser.add_argument("--script", action="store_true", help="print the script of the first case, and end")
    return parser.parse_args()


# `cases` gives for each number a heading, what became of the case, and its sheet. Prints each difference and the counts, and ends the
# program.
def compare(told, cases, foreign):
    counts = collections.defaultdict(collections.Counter)
    for number, (heading, fate, sheet) in cases:
        if told.script:
            print(*sheet.script, sep="\n")
            sys.exit()
        difference = sheet.difference(run(told.program, sheet.script))
        counts[heading][fate] += 1
        counts[heading]["all"] += 1
        if difference:
            counts[heading]["differ"] += 1
            print(f"case {number}, {heading}: {difference}", flush=True)
    for heading in sorted(counts):
        fates = ", ".join(f"{times} {fate}" for fate, times in sorted(counts[heading].items()) if fate not in ("all", "differ"))
        print(f"{heading}: {counts[heading]['all']} compared ({fates}), {counts[heading]['differ']} differ")
    compared, differ = (sum(of[what] for of in counts.values()) for what in ("all", "differ"))
    print(f"{compared} cases compared with {foreign}, {differ} differ")
    sys.exit(differ != 0)
