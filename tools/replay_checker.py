"""The answers of `replay`, worked out a second time, in exact fractions.

Written from docs/REPLAY.md, docs/SHEET.md, docs/REFUSALS.md, docs/LAYOUTS.md and docs/CONCEPTS.md alone, without a look at the sources of the
library. Where the library counts in steps of 1/U, 1/U^2 and so on, here every value is a fraction of one unit, and a worked-out cell is the
floor and the ceiling of its values times U. Only the sums of many products are kept as whole numbers, over the one denominator that all their
terms have (`sum_of_products`).

A cell is a pair (lower, upper) of steps, or None, the empty cell. A range is a pair of fractions (least, greatest), in units, or None, where
no value is reached.
"""

import re
from collections import Counter, OrderedDict
from fractions import Fraction
from math import ceil, floor

LIMIT = 131071                       # no bound of a cell is beyond this in size
GREATEST_COUNT = 2 ** 64 - 1
ZERO = (0, 0)

# ---------------------------------------------------------------------------------------------------------------------------------------
# Words


NUMBER = re.compile(rb'0|-?[1-9][0-9]*')
CELL = re.compile(rb'(0|-?[1-9][0-9]*)\.\.(0|-?[1-9][0-9]*)')
NAME = re.compile(rb'[a-z][a-z0-9]*')
FAR = 10 ** 40                       # stands for a size with so many digits that only its sign matters


class Malformed(Exception):
    """The line breaks the format."""


def whole(digits):
    """The number that these digits write. One with very many digits is far beyond every limit; its sign is all that is asked of it."""
    if len(digits) > 30:
        return -FAR if digits[:1] == b'-' else FAR
    return int(digits)


def size(word):
    if not NUMBER.fullmatch(word):
        raise Malformed('size')
    return whole(word)


def count(word):
    if not NUMBER.fullmatch(word):
        raise Malformed('count')
    value = whole(word)
    if not 0 <= value <= GREATEST_COUNT:
        raise Malformed('count out of range')
    return value


def cell_of(lower, upper):
    """The cell that two numbers read as: the empty one, where they make none."""
    if lower > upper or abs(lower) > LIMIT or abs(upper) > LIMIT:
        return None
    return lower, upper


def cell(word):
    if word == b'-':
        return None
    found = CELL.fullmatch(word)
    if not found:
        raise Malformed('cell')
    return cell_of(whole(found.group(1)), whole(found.group(2)))


def name(word):
    if not NAME.fullmatch(word):
        raise Malformed('name')
    return word


def rule(word):
    if word not in (b'meet', b'hull'):
        raise Malformed('rule')
    return word.decode()


def half(word):
    if word not in (b'lower', b'upper'):
        raise Malformed('side')
    return word.decode()


# Of each line its words behind the first; a last one in brackets stands for any number of them.
LINES = {
    b'open': (size, count, count),
    b'set': (count, count, size, size),
    b'begin': (),
    b'dot': (count, count, count, count, cell, cell),
    b'sum': (count, count, count),
    b'blend': (count, count, cell, cell),
    b'product': (count, count, name, cell, cell),
    b'solve': (count, name, cell),
    b'join': (count, count, rule),
    b'copy': (count, count),
    b'permute': (count, [count]),
    b'post': (),
    b'withdraw': (),
    b'norm1': (count,),
    b'norminf': (count,),
    b'largest': (count,),
    b'smallest': (count,),
    b'width': (count, count),
    b'middle': (count, count),
    b'enclosed': (count, count),
}

MATRICES = {
    b'dense': (count, count, count, [cell]),
    b'band': (count, count, count, count, count, [cell]),
    b'packed': (half, count, [cell]),
    b'turned': (name,),
    b'symmetric': (half, name),
    b'triangle': (half, name),
    b'unit': (size, name),
}


def read_words(kinds, words):
    """What the words say, each by its kind."""
    values = []
    many = bool(kinds) and isinstance(kinds[-1], list)
    fixed = kinds[:-1] if many else kinds
    if len(words) < len(fixed):
        raise Malformed('too few words')
    if len(words) > len(fixed) and not many:
        raise Malformed('too many words')
    for kind, word in zip(fixed, words):
        values.append(kind(word))
    if many:
        kind = kinds[-1][0]
        values.append([kind(word) for word in words[len(fixed):]])
    return values


def read_line(line):
    """The first word of a line, as text, and what its other words say."""
    words = line.split(b' ')
    if b'' in words:
        raise Malformed('no words' if not line else 'spaces')
    first, rest = words[0], words[1:]
    if first in LINES:
        return first.decode(), read_words(LINES[first], rest)
    if first == b'lengths':
        if rest == [b'-']:
            return 'lengths', None
        return 'lengths', read_words((count, count), rest)
    if first == b'matrix':
        if len(rest) < 2:
            raise Malformed('too few words')
        bound, kind = name(rest[0]), rest[1]
        if kind not in MATRICES:
            raise Malformed('kind of matrix')
        return 'matrix', [bound, kind.decode()] + read_words(MATRICES[kind], rest[2:])
    raise Malformed('first word')


# ---------------------------------------------------------------------------------------------------------------------------------------
# Ranges of fractions, and the cells that hold them


def units(a_cell, scale):
    """The values of a cell, in units."""
    if a_cell is None:
        return None
    return Fraction(a_cell[0], scale), Fraction(a_cell[1], scale)


def plus(a, b):
    if a is None or b is None:
        return None
    return a[0] + b[0], a[1] + b[1]


def minus(a, b):
    if a is None or b is None:
        return None
    return a[0] - b[1], a[1] - b[0]


def times(a, b):
    if a is None or b is None:
        return None
    corners = (a[0] * b[0], a[0] * b[1], a[1] * b[0], a[1] * b[1])
    return min(corners), max(corners)


def over(a, b):
    """All quotients of a value of a by one of b. b does not hold 0."""
    if a is None or b is None:
        return None
    corners = (a[0] / b[0], a[0] / b[1], a[1] / b[0], a[1] / b[1])
    return min(corners), max(corners)


def sum_of_products(pairs, scale):
    """The range of the sum of the products of these pairs of cells, in units.

    By the definition it is `plus` of all the `times`. All terms are whole numbers over scale^2, so they are added as such, and the fraction is made
    at the end.
    """
    least = greatest = 0
    for a, b in pairs:
        if a is None or b is None:
            return None
        (p, q), (r, s) = a, b
        corners = (p * r, p * s, q * r, q * s)
        least += min(corners)
        greatest += max(corners)
    return Fraction(least, scale * scale), Fraction(greatest, scale * scale)


class Beyond(Exception):
    """A worked-out bound is beyond the limit. Its arguments are the bound, lower or upper, and its steps."""


def rounded_out(values, scale):
    """The cell of these values: each bound the next step on its outer side."""
    if values is None:
        return None
    lower, upper = floor(values[0] * scale), ceil(values[1] * scale)
    if abs(lower) > LIMIT:
        raise Beyond('lower', lower)
    if abs(upper) > LIMIT:
        raise Beyond('upper', upper)
    return lower, upper


# ---------------------------------------------------------------------------------------------------------------------------------------
# Matrices


class Layout:
    """A storage, or a layer over another layout: a shape, and a cell at each place of it.

    `side` is lower or upper for a triangular layout and None for any other. A storage answers `read(i, j)`, the cell at a place inside its shape. A
    layer answers `through(i, j)`: the place below that the cell there is read from and None, or any place and the cell, where nothing below is read.
    """

    below = None
    side = None
    kept = None                      # the whole matrix, row after row, where it was asked for before
    depth = 0                        # how many layers there are

    def chain(self):
        """The kinds from the top down, three at most."""
        kinds, layout = [], self
        while layout is not None and len(kinds) < 3:
            kinds.append(layout.kind)
            layout = layout.below
        return ' over '.join(kinds) + (' over more' if layout is not None else '')


class Dense(Layout):
    kind = 'dense'

    def __init__(self, rows, columns, stride, run):
        self.fit = rows <= 1024 and columns <= 1024 and stride >= 1 and stride >= rows and len(run) >= stride * columns
        self.rows, self.columns = (rows, columns) if self.fit else (0, 0)
        self.stride, self.run = stride, run

    def read(self, i, j):
        return self.run[j * self.stride + i]


class Band(Layout):
    kind = 'band'

    def __init__(self, rows, columns, under, above, stride, run):
        self.fit = (rows <= 1024 and columns <= 1024 and under <= 1023 and above <= 1023 and stride >= under + above + 1
                    and len(run) >= stride * columns)
        self.rows, self.columns = (rows, columns) if self.fit else (0, 0)
        self.under, self.above, self.stride, self.run = under, above, stride, run

    def read(self, i, j):
        if j - self.above <= i <= j + self.under:
            return self.run[self.above + i - j + j * self.stride]
        return ZERO


class Packed(Layout):
    kind = 'packed'

    def __init__(self, side, n, run):
        self.fit = n <= 1024 and len(run) == n * (n + 1) // 2
        self.side, self.run = side, run
        self.rows = self.columns = n if self.fit else 0

    def read(self, i, j):
        if self.side == 'lower':
            return self.run[i + j * (2 * self.rows - j - 1) // 2] if i >= j else ZERO
        return self.run[i + j * (j + 1) // 2] if i <= j else ZERO


class Turned(Layout):
    kind = 'turned'

    def __init__(self, below):
        self.below, self.depth = below, below.depth + 1
        self.rows, self.columns = below.columns, below.rows
        self.side = {None: None, 'lower': 'upper', 'upper': 'lower'}[below.side]

    def through(self, i, j):
        return j, i, None


class Symmetric(Layout):
    kind = 'symmetric'

    def __init__(self, named, below):
        self.below, self.depth, self.named = below, below.depth + 1, named
        self.rows = self.columns = min(below.rows, below.columns)

    def through(self, i, j):
        if self.named == 'lower':
            return max(i, j), min(i, j), None
        return min(i, j), max(i, j), None


class Triangle(Layout):
    kind = 'triangle'

    def __init__(self, side, below):
        self.below, self.depth, self.side = below, below.depth + 1, side
        self.rows = self.columns = min(below.rows, below.columns)

    def through(self, i, j):
        stands = i >= j if self.side == 'lower' else i <= j
        return i, j, None if stands else ZERO


class Unit(Layout):
    kind = 'unit'

    def __init__(self, unit, below):
        self.fit = 1 <= unit <= 100000
        self.below, self.depth, self.side, self.unit = below, below.depth + 1, below.side, unit
        self.rows, self.columns = (below.rows, below.columns) if self.fit else (0, 0)

    def through(self, i, j):
        return i, j, (self.unit, self.unit) if i == j else None


def entry(layout, i, j):
    """The cell at a place: empty outside the shape. Layers may be thousands deep, so it goes down step by step."""
    while True:
        if not (0 <= i < layout.rows and 0 <= j < layout.columns):
            return None
        if layout.kept is not None:
            return layout.kept[i][j]
        if layout.below is None:
            return layout.read(i, j)
        i, j, found = layout.through(i, j)
        if found is not None:
            return found
        layout = layout.below


class Shelf:
    """Keeps whole matrices that were asked for, so that layers over them are not gone through again; the oldest go when they are too many."""

    ROOM = 12_000_000

    def __init__(self):
        self.layouts = OrderedDict()
        self.held = 0

    def matrix(self, layout):
        if layout.kept is None:
            layout.kept = [[entry(layout, i, j) for j in range(layout.columns)] for i in range(layout.rows)]
            self.layouts[id(layout)] = layout
            self.held += layout.rows * layout.columns + 1
            while self.held > self.ROOM and len(self.layouts) > 1:
                old = self.layouts.popitem(last=False)[1]
                old.kept = None
                self.held -= old.rows * old.columns + 1
        return layout.kept


# ---------------------------------------------------------------------------------------------------------------------------------------
# The sheet


class Refused(Exception):
    """Refused: the number, the column, the row, and for 10 the bound."""


class NotTaken(Exception):
    """The state does not take it, or a name is not bound, or a layout is not triangular."""


CALLS = ('dot', 'sum', 'blend', 'product', 'solve', 'join', 'copy', 'permute')
QUESTIONS = ('norm1', 'norminf', 'largest', 'smallest', 'width', 'middle', 'enclosed')
TAKEN = {
    'none': ('open',),
    'filling': ('open', 'set', 'begin'),
    'working': ('open',) + CALLS + QUESTIONS,
    'drafted': ('post', 'withdraw') + QUESTIONS,
}


def greater_size(a_cell):
    return max(abs(a_cell[0]), abs(a_cell[1]))


def lesser_size(a_cell):
    return min(abs(a_cell[0]), abs(a_cell[1]))


class Replay:
    """A script as it is gone through, line by line."""

    def __init__(self):
        self.state = 'none'
        self.scale = self.rows = self.across = 0
        self.columns = []
        self.draft = []
        self.target = None
        self.lengths = None
        self.names = {}
        self.shelf = Shelf()
        self.tally = Counter()       # how many answers there were of each kind

    # Answers

    def answer(self, line):
        """The answer to one line, which is told without its line feed."""
        try:
            word, values = read_line(line)
        except Malformed as why:
            self.tally['malformed, ' + why.args[0]] += 1
            return 'malformed'
        try:
            if word == 'lengths':
                self.lengths = None if values is None else tuple(values)
                said = 'granted'
            elif word == 'matrix':
                said = self.matrix(*values)
            elif word not in TAKEN[self.state]:
                self.tally[f'not taken, {word} while {self.state}'] += 1
                return 'not taken'
            else:
                said = getattr(self, word)(*values)
        except NotTaken as why:
            self.tally[f'not taken, {word}, {why.args[0]}'] += 1
            return 'not taken'
        except Refused as why:
            number, column, row, *bound = why.args
            if word == 'matrix':
                word = 'check'
            words = ['refused', str(number), word, str(column), str(row)] + bound
            self.tally[' '.join(['refused', str(number), word] + bound)] += 1
            return ' '.join(words)
        if said is None:
            said = 'granted'
        if word in QUESTIONS:
            self.tally[f'answered {word}' + (f' {said}' if said in ('none', 'yes', 'no') else '')] += 1
        elif word == 'matrix':
            layout = self.names[values[0]]
            self.tally[f'granted matrix, {layout.chain()}'] += 1
        elif word == 'lengths':
            self.tally['granted lengths' + (' -' if values is None else '')] += 1
        else:
            self.tally[f'granted {word}'] += 1
        return said

    def ending(self):
        """The lines that the sheet is printed in, when the script has ended."""
        self.tally[f'ended {self.state}'] += 1
        if self.state == 'none':
            return []
        lines = [' '.join(shown(column[i]) for column in self.columns) for i in range(self.rows)]
        if self.state == 'drafted':
            lines.append(f'draft {self.target}')
            lines.append(' '.join(shown(a_cell) for a_cell in self.draft))
        return lines

    # What is supplied, and the checks that many calls share

    def check_lengths(self, column, with_draft):
        if self.lengths is None:
            return
        cells, draft = self.lengths
        if cells != self.rows * self.across or (with_draft and draft != self.rows):
            raise Refused(3, column, 0)

    def check_columns(self, *columns):
        for column in columns:
            if column >= self.across:
                raise Refused(4, column, 0)

    def check_row(self, column, row):
        if row >= self.rows:
            raise Refused(5, column, row)

    # Filling

    def open(self, scale, rows, columns):
        if not 1 <= scale <= 100000:
            raise Refused(1, 0, 0)
        if not (1 <= rows <= 1024 and 1 <= columns <= 64 and rows * columns <= 4096):
            raise Refused(2, 0, 0)
        if self.lengths is not None and self.lengths != (rows * columns, rows):
            raise Refused(3, 0, 0)
        self.scale, self.rows, self.across = scale, rows, columns
        self.columns = [[None] * rows for _ in range(columns)]
        self.draft = [None] * rows
        self.target = None
        self.state = 'filling'

    def set(self, k, i, lower, upper):
        self.check_lengths(k, False)
        self.check_columns(k)
        self.check_row(k, i)
        if cell_of(lower, upper) is None:
            raise Refused(6, k, 0)
        self.columns[k][i] = (lower, upper)

    def begin(self):
        self.check_lengths(0, False)
        self.state = 'working'

    # The calls of a working sheet

    def drafted(self, k, draft):
        self.draft, self.target, self.state = draft, k, 'drafted'

    def worked(self, call, k, formulas):
        """Drafts column k with the cells that these formulas work out, pairs of a row and a function of the draft so far to the row's range."""
        draft = list(self.columns[k])
        for i, formula in formulas:
            values = formula(draft)
            try:
                draft[i] = rounded_out(values, self.scale)
            except Beyond as beyond:
                self.draft = [None] * self.rows
                bound, steps = beyond.args
                if abs(steps) == LIMIT + 1:
                    self.tally[f'one step beyond, {call} {bound} {"+" if steps > 0 else "-"}'] += 1
                raise Refused(10, k, i, bound)
            self.tell_apart(call, values, draft[i])
        self.drafted(k, draft)

    def tell_apart(self, call, values, found):
        """Counts what kind of cell was worked out; for the tally."""
        if found is None:
            self.tally[f'worked, {call}, empty'] += 1
            return
        exact = [value * self.scale == bound for value, bound in zip(values, found)]
        self.tally[f'worked, {call}, ' + {2: 'both bounds exact', 1: 'one bound rounded', 0: 'both bounds rounded'}[sum(exact)]] += 1
        for bound, steps in zip(('lower', 'upper'), found):
            if abs(steps) == LIMIT:
                self.tally[f'at the limit, {call} {bound} {"+" if steps > 0 else "-"}'] += 1

    def combined(self, alpha, sums, beta, r):
        """beta * r + alpha * sums; of these, sums is a range already."""
        return plus(times(units(beta, self.scale), units(r, self.scale)), times(units(alpha, self.scale), sums))

    def dot(self, k, i, x, y, alpha, beta):
        self.check_lengths(k, True)
        self.check_columns(k, x, y)
        self.check_row(k, i)
        sums = sum_of_products(zip(self.columns[x], self.columns[y]), self.scale)
        self.worked('dot', k, [(i, lambda draft: self.combined(alpha, sums, beta, self.columns[k][i]))])

    def sum(self, k, i, x):
        self.check_lengths(k, True)
        self.check_columns(k, x)
        self.check_row(k, i)
        column = self.columns[x]
        if None in column:
            total = None
        else:
            total = (sum((Fraction(lower, self.scale) for lower, upper in column), Fraction(0)),
                     sum((Fraction(upper, self.scale) for lower, upper in column), Fraction(0)))
        self.worked('sum', k, [(i, lambda draft: total)])

    def blend(self, k, x, alpha, beta):
        self.check_lengths(k, True)
        self.check_columns(k, x)

        def formula(i):
            return lambda draft: self.combined(alpha, units(self.columns[x][i], self.scale), beta, self.columns[k][i])

        self.worked('blend', k, [(i, formula(i)) for i in range(self.rows)])

    def bound_layout(self, m):
        if m not in self.names:
            raise NotTaken('name not bound')
        return self.names[m]

    def product(self, k, x, m, alpha, beta):
        layout = self.bound_layout(m)
        self.check_lengths(k, True)
        self.check_columns(k, x)
        if layout.rows > self.rows or layout.columns > self.rows:
            raise Refused(7, k, 0)
        matrix = self.shelf.matrix(layout)
        xs = self.columns[x][:layout.columns]

        def formula(i):
            return lambda draft: self.combined(alpha, sum_of_products(zip(matrix[i], xs), self.scale), beta, self.columns[k][i])

        self.worked('product', k, [(i, formula(i)) for i in range(layout.rows)])
        self.tally[f'product, {self.fitting(layout)}, over {layout.chain()}'] += 1

    def fitting(self, layout):
        """How the shape of a layout stands to the rows of the sheet; for the tally."""
        if layout.rows == 0 and layout.columns == 0:
            return '0 by 0'
        return 'whole' if layout.rows == layout.columns == self.rows else 'part'

    def solve(self, k, m, alpha):
        layout = self.bound_layout(m)
        if layout.side is None:
            raise NotTaken('not triangular')
        self.check_lengths(k, True)
        self.check_columns(k)
        if layout.rows > self.rows or layout.columns > self.rows:
            raise Refused(7, k, 0)
        order = range(layout.rows) if layout.side == 'lower' else range(layout.rows - 1, -1, -1)
        for i in order:
            divisor = entry(layout, i, i)
            if divisor is not None and divisor[0] <= 0 <= divisor[1]:
                raise Refused(8, k, i)
        matrix = self.shelf.matrix(layout)
        old = self.columns[k]

        def formula(i):
            def values(draft):
                before = range(i) if layout.side == 'lower' else range(i + 1, layout.rows)
                sums = sum_of_products(((matrix[i][j], draft[j]) for j in before), self.scale)
                rest = minus(times(units(alpha, self.scale), units(old[i], self.scale)), sums)
                self.tell_divisor(matrix[i][i])
                return over(rest, units(matrix[i][i], self.scale))
            return values

        self.worked('solve', k, [(i, formula(i)) for i in order])
        self.tally[f'solve, {layout.side}, {self.fitting(layout)}, over {layout.chain()}'] += 1

    def tell_divisor(self, divisor):
        """Counts what kind of divisor this is; for the tally."""
        if divisor is None:
            self.tally['divisor, empty'] += 1
        else:
            self.tally[f'divisor, {"positive" if divisor[0] > 0 else "negative"}, {"point" if divisor[0] == divisor[1] else "wide"}'] += 1

    def join(self, k, x, by):
        self.check_lengths(k, True)
        self.check_columns(k, x)
        joined = meet if by == 'meet' else hull
        self.drafted(k, [joined(a, b) for a, b in zip(self.columns[k], self.columns[x])])

    def copy(self, k, x):
        self.check_lengths(k, True)
        self.check_columns(k, x)
        self.drafted(k, list(self.columns[x]))

    def permute(self, k, order):
        self.check_lengths(k, True)
        self.check_columns(k)
        if sorted(order) != list(range(self.rows)):
            raise Refused(9, k, 0)
        self.drafted(k, [self.columns[k][place] for place in order])

    # Drafted

    def post(self):
        self.check_lengths(self.target, True)
        self.columns[self.target] = self.draft
        self.withdrawn()

    def withdraw(self):
        self.check_lengths(self.target, True)
        self.withdrawn()

    def withdrawn(self):
        self.draft, self.target, self.state = [None] * self.rows, None, 'working'

    # Questions

    def asked(self, k):
        """The cells of a column, or None where one is empty."""
        self.check_lengths(k, False)
        self.check_columns(k)
        return None if None in self.columns[k] else self.columns[k]

    def norm1(self, k):
        cells = self.asked(k)
        return 'none' if cells is None else str(sum(map(greater_size, cells)))

    def norminf(self, k):
        cells = self.asked(k)
        return 'none' if cells is None else str(max(map(greater_size, cells)))

    def largest(self, k):
        cells = self.asked(k)
        if cells is None:
            return 'none'
        sizes = list(map(greater_size, cells))
        return f'{max(sizes)} {sizes.index(max(sizes))}'

    def smallest(self, k):
        cells = self.asked(k)
        if cells is None:
            return 'none'
        sizes = list(map(lesser_size, cells))
        return f'{min(sizes)} {sizes.index(min(sizes))}'

    def one_cell(self, k, i):
        self.check_lengths(k, False)
        self.check_columns(k)
        self.check_row(k, i)
        return self.columns[k][i]

    def width(self, k, i):
        a_cell = self.one_cell(k, i)
        return 'none' if a_cell is None else str(a_cell[1] - a_cell[0])

    def middle(self, k, i):
        a_cell = self.one_cell(k, i)
        return 'none' if a_cell is None else str(floor(Fraction(a_cell[0] + a_cell[1], 2)))

    def enclosed(self, k, x):
        self.check_lengths(k, False)
        self.check_columns(k, x)
        return 'yes' if all(map(inside, self.columns[k], self.columns[x])) else 'no'

    # Matrices

    def matrix(self, bound, kind, *values):
        if kind in ('dense', 'band', 'packed'):
            layout = {'dense': Dense, 'band': Band, 'packed': Packed}[kind](*values)
        else:
            *figures, other = values
            below = self.bound_layout(other)
            if kind == 'unit' and below.side is None:
                raise NotTaken('not triangular')
            layout = {'turned': Turned, 'symmetric': Symmetric, 'triangle': Triangle, 'unit': Unit}[kind](*figures, below)
        self.names[bound] = layout
        if not getattr(layout, 'fit', True):
            raise Refused(11, 0, 0)


def inside(a, b):
    """Whether all fractions inside a are inside b."""
    if a is None:
        return True
    return b is not None and b[0] <= a[0] and a[1] <= b[1]


def meet(a, b):
    if a is None or b is None:
        return None
    lower, upper = max(a[0], b[0]), min(a[1], b[1])
    return (lower, upper) if lower <= upper else None


def hull(a, b):
    if a is None or b is None:
        return b if a is None else a
    return min(a[0], b[0]), max(a[1], b[1])


def shown(a_cell):
    return '-' if a_cell is None else f'{a_cell[0]}..{a_cell[1]}'


def script_lines(script):
    """The lines of a script, without their line feeds, and what is behind the last one, where a line was cut off."""
    *lines, cut = script.split(b'\n')
    return lines, cut


def replay(script, tally=None):
    """What `replay` prints for this script, as bytes. The tally, a Counter, has its answers added."""
    at_work = Replay()
    lines, cut = script_lines(script)
    answers = [at_work.answer(line) for line in lines]
    if cut:
        at_work.tally['malformed, cut off'] += 1
        answers.append('malformed')
    answers += at_work.ending()
    if tally is not None:
        tally.update(at_work.tally)
    return ''.join(answer + '\n' for answer in answers).encode('ascii')
