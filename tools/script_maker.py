"""Makes scripts for `replay`, random ones and damaged ones, each from a seed.

A script is made line by line, and each line is told to the checker at once, so that the maker knows the state of the sheet, its cells and what the
names are bound to. So most lines ask for something that can be granted, and a share of them for something that cannot.
"""

import random

from replay_checker import CALLS, GREATEST_COUNT, LIMIT, QUESTIONS, TAKEN, Replay

NAMES = ['a', 'b', 'c', 'm', 'share', 'band2', 'x9', 'dense', 'lower', 'z0z']
SCALES = [1, 1, 2, 7, 10, 10, 100, 1000, 100000]
WRONG_COUNTS = [64, 1024, 1025, 4096, 131072, 2 ** 32 - 1, 2 ** 32, 2 ** 63 - 1, 2 ** 63, GREATEST_COUNT]


class Maker:
    """A script as it grows."""

    def __init__(self, seed, lines, rows=None):
        self.random = random.Random(f'script {seed}')
        self.wanted = lines
        self.fixed_rows = rows
        self.sheet = Replay()
        self.lines = []
        self.unit = 10               # U of the sheet, or of the next one
        self.spread = 20             # how large the cells of this sheet mostly are
        self.left = 0                # how many lines this sheet has before the next one is opened
        self.wrong = 0.02            # how often a column or a row is one that is not there

    # Small choices

    def chance(self, share):
        return self.random.random() < share

    def pick(self, *choices):
        return self.random.choice(choices)

    def tell(self, *words):
        """Adds a line of these words, and answers what the checker says to it."""
        return self.tell_bytes(' '.join(str(word) for word in words).encode('ascii'))

    def tell_bytes(self, line):
        self.lines.append(line)
        self.left -= 1
        return self.sheet.answer(line)

    @property
    def rows(self):
        return self.sheet.rows or 3

    @property
    def columns(self):
        return self.sheet.across or 2

    def wrong_count(self, end):
        return self.pick(end, end, end + 1, end + self.random.randint(0, 9), self.random.choice(WRONG_COUNTS),
                         self.random.randint(0, GREATEST_COUNT))

    def column(self, wrong=None):
        return self.wrong_count(self.columns) if self.chance(self.wrong if wrong is None else wrong) else self.random.randrange(self.columns)

    def row(self):
        return self.wrong_count(self.rows) if self.chance(self.wrong) else self.random.randrange(self.rows)

    def bound(self):
        """A bound, mostly of the size of this sheet's cells."""
        r = self.random.random()
        if r < 0.60:
            return self.random.randint(-self.spread, self.spread)
        if r < 0.72:
            return self.random.randint(-3, 3)
        if r < 0.86:
            return self.pick(1, -1) * (self.unit + self.random.randint(-2, 2))
        if r < 0.95:
            return self.random.randint(-1000, 1000)
        if r < 0.985:
            return self.random.randint(-LIMIT, LIMIT)
        return self.pick(LIMIT, -LIMIT, LIMIT - 1, 1 - LIMIT)

    def held(self, lower, upper):
        """A pair that is a cell."""
        lower, upper = max(-LIMIT, min(LIMIT, lower)), max(-LIMIT, min(LIMIT, upper))
        return (lower, upper) if lower <= upper else (upper, lower)

    def filled(self):
        """The words of a cell that is not empty."""
        lower = self.bound()
        r = self.random.random()
        if r < 0.45:
            upper = lower
        elif r < 0.80:
            upper = lower + self.random.randint(0, 4)
        elif r < 0.93:
            upper = lower + self.random.randint(0, self.spread + 1)
        else:
            upper = self.bound()
        return '{}..{}'.format(*self.held(lower, upper))

    def huge(self):
        return self.pick(LIMIT + 1, -LIMIT - 1, 2 ** 31 - 1, -2 ** 31, 2 ** 31, 2 ** 32, 2 ** 32 + 5, 2 ** 63 - 1, -2 ** 63, 2 ** 63, 2 ** 64,
                         2 ** 64 + 7,
                         -2 ** 64, 2 ** 128, 10 ** 50, -10 ** 80, int('9' * self.random.randint(20, 300)))

    def broken(self):
        """The words of two sizes that make no cell."""
        r = self.random.random()
        if r < 0.4:
            low = self.bound()
            return f'{low}..{low - self.random.randint(1, 9)}'
        if r < 0.6:
            return f'{self.bound()}..{self.huge()}'
        if r < 0.8:
            return f'{self.huge()}..{self.bound()}'
        if r < 0.9:
            return f'{-LIMIT}..{LIMIT + 1}'
        return f'{self.huge()}..{self.huge()}'

    def any_cell(self, empty=0.05, broken=0.03):
        r = self.random.random()
        if r < empty:
            return '-'
        if r < empty + broken:
            return self.broken()
        return self.filled()

    def factor(self):
        """An alpha or a beta: mostly near one unit."""
        u = self.unit
        r = self.random.random()
        if r < 0.35:
            return f'{u}..{u}'
        if r < 0.55:
            return '{}..{}'.format(*self.held(u - self.random.randint(0, 3), u + self.random.randint(0, 3)))
        if r < 0.63:
            return '0..0'
        if r < 0.70:
            return '{}..{}'.format(*self.held(-u - self.random.randint(0, 2), -u + self.random.randint(0, 2)))
        if r < 0.76:
            return '{}..{}'.format(*self.held(-self.random.randint(0, u), self.random.randint(0, u)))
        if r < 0.81:
            return self.pick('-', self.broken())
        if r < 0.85:
            return '{}..{}'.format(*self.held(self.random.randint(-LIMIT, LIMIT), self.random.randint(-LIMIT, LIMIT)))
        return self.filled()

    # Matrices

    def divisor(self):
        """A diagonal entry that a solve can divide by, mostly."""
        r = self.random.random()
        if r < 0.01:
            return '-'
        if r < 0.025:
            return '{}..{}'.format(*self.held(-self.random.randint(0, 3), self.random.randint(0, 3)))
        sign = self.pick(1, 1, 1, -1)
        near = max(1, self.pick(self.unit, self.unit, self.unit * 2, self.unit // 2, self.random.randint(1, 9), self.random.randint(1, 2 * self.unit)))
        far = near + self.pick(0, 0, 1, 2, self.random.randint(0, near))
        return '{}..{}'.format(*self.held(sign * near, sign * far))

    def off_diagonal(self):
        r = self.random.random()
        if r < 0.2:
            return '0..0'
        if r < 0.215:
            return self.pick('-', self.broken())
        if r < 0.8:
            small = max(1, self.unit // 4)
            low = self.random.randint(-small, small)
            return '{}..{}'.format(*self.held(low, low + self.random.randint(0, max(1, small // 2))))
        return self.filled()

    def place(self, i, j):
        return self.divisor() if i == j else self.off_diagonal()

    def side_length(self):
        """How many rows or columns a matrix has, to fit this sheet, mostly."""
        n = self.rows
        r = self.random.random()
        if r < 0.70:
            return n
        if r < 0.93:
            return self.random.randint(0, n)
        if r < 0.97:
            return n + 1
        return self.random.randint(0, n + 3)

    def storage(self, name, kind=None):
        kind = kind or self.pick('dense', 'dense', 'band', 'packed', 'packed')
        rows = self.side_length()
        columns = rows if self.chance(0.6) else self.side_length()
        if kind == 'dense':
            stride = max(1, rows + self.pick(0, 0, 1, 2))
            run = [self.any_cell(0.3, 0.3)] * (stride * columns)
            for j in range(columns):
                for i in range(rows):
                    run[j * stride + i] = self.place(i, j)
            run += [self.any_cell(0.3, 0.3)] * self.pick(0, 0, 0, 1, 3)
            return self.tell('matrix', name, 'dense', rows, columns, stride, *run)
        if kind == 'band':
            under, above = self.random.randint(0, 3), self.random.randint(0, 3)
            stride = under + above + 1 + self.pick(0, 0, 1, 2)
            run = [self.any_cell(0.3, 0.3)] * (stride * columns)
            for j in range(columns):
                for i in range(max(0, j - above), min(rows, j + under + 1)):
                    run[above + i - j + j * stride] = self.place(i, j)
            run += [self.any_cell(0.3, 0.3)] * self.pick(0, 0, 0, 1, 3)
            return self.tell('matrix', name, 'band', rows, columns, under, above, stride, *run)
        side = self.pick('lower', 'upper')
        run = [self.place(i, j) for j in range(rows) for i in (range(j, rows) if side == 'lower' else range(j + 1))]
        return self.tell('matrix', name, 'packed', side, rows, *run)

    def unfit(self, name):
        """A storage with figures that are unfit, or fit by a hair."""
        if self.chance(0.4):
            return self.tell('matrix', name, *self.random.choice(HAIRS).split(' '))
        run = [self.any_cell() for _ in range(self.random.randint(0, 12))]
        many = len(run)
        r = self.random.random()
        if r < 0.15:
            return self.tell('matrix', name, 'dense', 2, 3, self.pick(0, 1, 2, 3, 4), *run)
        if r < 0.25:
            return self.tell('matrix', name, 'dense', self.pick(0, 1, many), 1, self.pick(0, 1, many, many + 1), *run)
        if r < 0.37:
            return self.tell('matrix', name, 'dense', self.random.choice(WRONG_COUNTS + [0]), self.random.choice(WRONG_COUNTS + [0, 1]),
                             self.random.choice(WRONG_COUNTS + [1]), *run)
        if r < 0.45:
            return self.tell('matrix', name, 'dense', self.pick(0, 5, 1024, 1025), 0, self.pick(0, 1, 5, 1024, 1025, GREATEST_COUNT), *run)
        if r < 0.58:
            return self.tell('matrix', name, 'band', 2, self.random.randint(0, 4), self.random.randint(0, 2), self.random.randint(0, 2),
                             self.random.randint(0, 5), *run)
        if r < 0.70:
            return self.tell('matrix', name, 'band', self.pick(1, 1024, 1025), self.pick(0, 0, 1), self.pick(0, 1023, 1024, GREATEST_COUNT),
                             self.pick(0, 1023, 1024, GREATEST_COUNT), self.pick(1, 1024, 2047, 2048, GREATEST_COUNT), *run)
        if r < 0.9:
            return self.tell('matrix', name, 'packed', self.pick('lower', 'upper'), self.random.randint(0, 5), *run)
        return self.tell('matrix', name, 'packed', self.pick('lower', 'upper'), self.random.choice(WRONG_COUNTS), *run)

    def layer(self, name, other, kind=None):
        below = self.sheet.names.get(other.encode())
        triangular = below is not None and below.side is not None
        if kind is None:
            kind = self.pick('turned', 'symmetric', 'triangle', *(['unit', 'unit', 'turned'] if triangular or self.chance(0.1) else []))
        if kind == 'turned':
            return self.tell('matrix', name, 'turned', other)
        if kind == 'unit':
            unit = self.unit if self.chance(0.7) else self.pick(1, 2, 100000, 100001, 0, -1, self.huge(), self.random.randint(1, 100000))
            return self.tell('matrix', name, 'unit', unit, other)
        return self.tell('matrix', name, kind, self.pick('lower', 'upper'), other)

    def some_name(self):
        bound = sorted(name.decode() for name in self.sheet.names)
        if not bound or self.chance(0.02):
            return self.random.choice(NAMES + ['unbound', 'q7'])
        return self.random.choice(bound)

    def new_matrix(self, triangular=False):
        """Binds a name to a storage with some layers over it, and answers the name."""
        name = self.random.choice(NAMES)
        r = self.random.random()
        if r < 0.05:
            self.unfit(name)
        elif r < 0.9 or not self.sheet.names:
            self.storage(name)
        else:
            name = self.some_name()
        depth = self.random.choice([0, 0, 0, 1, 1, 1, 2, 2, 3, 3, 4, 5]) if self.chance(0.93) else self.random.randint(4, 14)
        for _ in range(depth):
            over = self.random.choice(NAMES) if self.chance(0.5) else name
            self.layer(over, name)
            if self.chance(0.15) and over != name:
                self.storage(name)   # bound again: the layer keeps the older one
            name = over
        bound = self.sheet.names.get(name.encode())
        if triangular and (bound is None or bound.side is None) and self.chance(0.95):
            over = self.random.choice(NAMES)
            self.layer(over, name, 'triangle')
            name = over
        return name

    # Lines

    def order(self):
        n = self.rows
        order = list(range(n))
        self.random.shuffle(order)
        if self.chance(0.75):
            return order
        r = self.random.random()
        if r < 0.3:
            order[self.random.randrange(n)] = self.random.randrange(n)
        elif r < 0.45:
            order.pop()
        elif r < 0.6:
            order.append(self.random.randrange(n + 1))
        elif r < 0.75:
            order[self.random.randrange(n)] = self.wrong_count(n)
        elif r < 0.85:
            order = [place + 1 for place in order]
        elif r < 0.93:
            order = []
        else:
            order = order + order
        return order

    def words_of(self, word):
        """The words of a line that starts with this one, for the sheet as it is."""
        if word == 'open':
            return [word] + self.figures_of_open()
        if word == 'set':
            if self.chance(0.06):
                cell = self.broken()
            else:
                cell = self.filled()
            return [word, self.column(), self.row()] + cell.split('..')
        if word in ('begin', 'post', 'withdraw'):
            return [word]
        if word == 'dot':
            return [word, self.column(), self.row(), self.column(), self.column(), self.factor(), self.factor()]
        if word == 'sum':
            return [word, self.column(), self.row(), self.column()]
        if word == 'blend':
            return [word, self.column(), self.column(), self.factor(), self.factor()]
        if word == 'product':
            return [word, self.column(), self.column(), self.some_name(), self.factor(), self.factor()]
        if word == 'solve':
            return [word, self.column(), self.some_name(), self.factor()]
        if word == 'join':
            return [word, self.column(), self.column(), self.pick('meet', 'hull')]
        if word == 'copy':
            return [word, self.column(), self.column()]
        if word == 'permute':
            return [word, self.column()] + self.order()
        if word in ('width', 'middle'):
            return [word, self.column(), self.row()]
        if word == 'enclosed':
            return [word, self.column(), self.column()]
        if word in QUESTIONS:
            return [word, self.column()]
        if word == 'lengths':
            return [word] + self.pick(['-'], [self.rows * self.columns, self.rows])
        return ['matrix', self.random.choice(NAMES), 'turned', self.some_name()]

    def figures_of_open(self):
        r = self.random.random()
        if r < 0.03:
            return [self.pick(0, -1, 100001, -self.random.randint(1, 10 ** 6), self.huge()), self.random.randint(0, 5), self.random.randint(1, 3)]
        if r < 0.07:
            return [self.pick(0, 1, 10, 100000), *self.pick((0, 1), (1, 0), (0, 0), (1025, 1), (1, 65), (64, 65), (65, 64), (1024, 5), (4096, 1),
                                                            (4097, 1),
                                                             (2 ** 32, 2 ** 32), (2 ** 63, 2), (GREATEST_COUNT, GREATEST_COUNT), (1, GREATEST_COUNT))]
        scale = self.random.choice(SCALES) if self.chance(0.85) else self.random.randint(1, 100000)
        if self.fixed_rows:
            return [scale, self.fixed_rows, self.random.randint(2, max(2, min(4, 4096 // self.fixed_rows)))]
        if r < 0.095:
            rows = self.pick(1, 2, 16, 64, 100, 256, 1024)
            return [scale, rows, self.random.randint(1, min(64, 4096 // rows))]
        if r < 0.10:
            return [scale, *self.pick((64, 64), (1024, 4), (1, 64), (1024, 1))]
        if r < 0.15:
            return [scale, self.random.randint(6, 14), self.random.randint(2, 5)]
        return [scale, self.random.choice([1, 1, 2, 2, 3, 3, 3, 4, 4, 5]), self.random.choice([1, 2, 3, 3, 4, 4, 5])]

    def question(self):
        self.wrong = self.random.choice([0.02] * 9 + [0.4])
        self.tell(*self.words_of(self.random.choice(QUESTIONS)))
        self.wrong = 0.02

    def look(self, k, rows=None):
        """Asks for the width and the middle of cells of a column, which together tell each of them, or now and then for its sizes."""
        if rows is None:
            rows = self.random.sample(range(self.rows), min(self.rows, 3))
        for i in rows:
            self.tell('width', k, i)
            if self.sheet.columns[k][i] is not None or self.chance(0.1):
                self.tell('middle', k, i)
        if self.chance(0.2):
            self.tell(self.pick('norm1', 'norminf', 'largest', 'smallest'), k)
        elif self.chance(0.05):
            self.tell('enclosed', k, self.column(0))

    def lengths(self):
        """Tells lengths that are mostly wrong, asks a few things over them, and then puts them right."""
        n, c = self.rows, self.columns
        self.tell('lengths', *self.pick((n * c, n), (n * c, n + 1), (n * c, 0), (n * c + 1, n), (n * c - 1, n), (0, 0), (n, n * c), (n * c, GREATEST_COUNT),
                                        (GREATEST_COUNT, n), (GREATEST_COUNT, GREATEST_COUNT), (2 ** 61, 2 ** 61), (self.random.randint(0, 50),
                                                                                                                    self.random.randint(0, 9))))
        for _ in range(self.pick(1, 2, 3, 5)):
            word = self.random.choice(TAKEN[self.sheet.state])
            if word == 'begin' and self.chance(0.5):
                word = 'set'
            self.tell(*self.words_of(word))
        if self.chance(0.03):
            return
        if self.chance(0.15):
            self.tell('lengths', self.rows * self.columns, self.rows)
        else:
            self.tell('lengths', '-')

    def wrong_state(self):
        """A line that this state does not take."""
        words = [word for word in ['open', 'set', 'begin', 'post', 'withdraw', *CALLS, *QUESTIONS] if word not in TAKEN[self.sheet.state]]
        self.tell(*self.words_of(self.random.choice(words)))

    def malformed(self):
        """A line that breaks the format, mostly: a good line with one thing wrong, or one out of a list."""
        if self.chance(0.35):
            self.tell_bytes(self.random.choice(MALFORMED))
            return
        words = [str(word).encode() for word in self.words_of(self.random.choice(['open', 'set', 'begin', 'post', 'withdraw', 'lengths', 'matrix',
                                                                                  *CALLS,
                                                                                  *QUESTIONS]))]
        at = self.random.randrange(len(words))
        line = b' '.join(words)
        r = self.random.randrange(20)
        if r == 0:
            line = line.replace(b' ', b'  ', 1) if b' ' in line else b' ' + line
        elif r == 1:
            line = line + b' '
        elif r == 2:
            line = b' ' + line
        elif r == 3:
            line = line + b'\r'
        elif r == 4:
            line = line.replace(b' ', b'\t', 1)
        elif r == 5:
            words.pop(at)
            line = b' '.join(words)
        elif r == 6:
            words.insert(at + 1, self.random.choice([b'0', b'1..2', b'-', b'x', b'18446744073709551616']))
            line = b' '.join(words)
        elif r in (7, 8, 9, 10):
            words[at] = self.random.choice([b'00', b'-0', b'01', b'+1', b'-', b'--1', b'1-', b'1.0', b'18446744073709551616', b'-1', b'0x1', b'1e3',
                                            b'..', b'1..',
                                            b'..1', b'1...2', b'1..2..3', b'01..2', b'1..-0', b'0..00', b'-..-', b'1..', b'A', b'aB', b'1a', b'a-b',
                                            b'a.b', b'\xc3\xa9',
                                            b'\xff', b'\x00', b'lowers', b'Meet', b'340282366920938463463374607431768211456', b'9' * 60])
            line = b' '.join(words)
        elif r == 11:
            line = line.upper()
        elif r == 12:
            line = line.capitalize()
        elif r in (13, 14):
            place = self.random.randrange(len(line) + 1)
            line = line[:place] + bytes([self.random.choice([b for b in range(256) if b != 10])]) + line[place:]
        elif r in (15, 16):
            place = self.random.randrange(len(line))
            line = line[:place] + line[place + 1:]
        elif r == 17:
            line = line[:self.random.randrange(len(line) + 1)]
        elif r == 18:
            line = line + line
        else:
            line = line + b' ' + line
        self.tell_bytes(line)

    # Stretches of a script

    def open(self):
        if self.sheet.state == 'drafted':
            self.end_draft()
            if self.sheet.state == 'drafted':
                return
        self.spread = self.pick(3, 9, 20, 20, 50, 200, 2000, 20000)
        figures = self.figures_of_open()
        if isinstance(figures[0], int) and 1 <= figures[0] <= 100000:
            self.unit = figures[0]
        if self.tell('open', *figures) == 'granted':
            self.left = self.random.randint(30, 150) + self.rows * self.columns if self.rows * self.columns < 120 else self.random.randint(40, 120)
            if self.fixed_rows:
                self.left = self.rows * self.columns + max(12, 2000 // self.rows)
        self.unit = self.sheet.scale or self.unit

    def fill(self):
        """Sets most cells of a sheet that is not too large, or some rows of a larger one."""
        n, c = self.rows, self.columns
        places = [(k, i) for k in range(c) for i in range(n)]
        if len(places) > 150 and not self.fixed_rows:
            places = self.random.sample(places, 60) + [(c - 1, i) for i in range(min(n, 64))]
        missing = self.pick(0, 0, 0, 0.02, 0.05, 0.2)
        for k, i in places:
            if not self.chance(missing):
                self.tell('set', k, i, *self.filled().split('..'))
            if self.chance(0.04 if len(places) < 500 else 0.001):
                self.odd_line()
        self.total_at_limit()

    def total_at_limit(self):
        """Sets the last cell of a column so that its sum, or the sum of one row of two columns, is at the limit or a step beyond."""
        if not self.chance(0.35):
            return
        k = self.random.randrange(self.columns)
        column = self.sheet.columns[k]
        if None in column[:-1]:
            return
        goal = self.pick(LIMIT, -LIMIT) + self.pick(0, 0, 1, -1)
        bound = self.pick(0, 1)
        rest = goal - sum(cell[bound] for cell in column[:-1])
        lower, upper = (rest, rest) if self.chance(0.3) else (rest - (bound and 3), rest + (0 if bound else 3))
        self.tell('set', k, self.rows - 1, lower, upper)

    def odd_line(self):
        r = self.random.random()
        if r < 0.5:
            self.malformed()
        elif r < 0.8:
            self.wrong_state()
        else:
            self.lengths()

    def end_draft(self):
        spoiled = None in self.sheet.draft and None not in self.sheet.columns[self.sheet.target]
        target = self.sheet.target
        if self.tell('withdraw' if self.chance(0.8 if spoiled else 0.15) else 'post') == 'granted' and self.lines[-1] == b'post' and self.chance(0.6):
            self.look(target)
        if self.sheet.state == 'drafted':
            self.tell('lengths', '-')
            self.tell(self.pick('post', 'withdraw'))

    def call(self):
        word = self.random.choice(['dot', 'sum', 'blend', 'blend', 'product', 'product', 'product', 'solve', 'solve', 'solve', 'join', 'copy',
                                   'permute'])
        if word == 'product' and self.chance(0.7):
            name = self.new_matrix()
            self.tell('product', self.column(), self.column(), name, self.factor(), self.factor())
        elif word == 'solve' and self.chance(0.8):
            name = self.new_matrix(triangular=True)
            self.tell('solve', self.column(), name, self.factor())
        else:
            self.wrong = self.random.choice([0.02] * 9 + [0.4])
            self.tell(*self.words_of(word))
            self.wrong = 0.02

    def towards_limit(self):
        """A blend, dot or product whose beta is chosen so that one bound comes close to the limit, at it where it can."""
        k, x, i = self.column(0), self.column(0), self.random.randrange(self.rows)
        r, a = self.sheet.columns[k][i], self.sheet.columns[x][i]
        if r is None or a is None or r[0] != r[1] or r[0] == 0:
            self.call()
            return
        alpha, u = self.pick(self.unit, 1, -1, 0, self.unit + 1), self.unit
        rest = self.pick(LIMIT, -LIMIT, LIMIT + 1, -LIMIT - 1) * u - alpha * self.pick(*a)
        beta = rest // r[0] + self.pick(0, 0, 1)
        self.tell('blend', k, x, f'{alpha}..{alpha}', f'{beta}..{beta}')

    def limit_sheet(self):
        """A small sheet whose cells add up to the limit, a step less or a step more, and calls that add them."""
        if self.sheet.state == 'drafted':
            self.end_draft()
        u = self.random.choice(SCALES)
        n = self.random.randint(1, 4)
        if self.tell('open', u, n, 4) != 'granted':
            self.tell('lengths', '-')
            return
        self.unit = u
        sign = self.pick(1, -1)
        beyond = self.random.randrange(2 * n)
        for i in range(n):
            low = self.random.randint(-30, 30) + self.pick(0, sign * 60000)
            wide = self.pick(0, 0, 2, 5)
            rest = self.pick(0, 0, 0, -sign, sign * wide, -sign * wide) + (sign if i == beyond else 0)
            self.tell('set', 0, i, low, low + wide)
            other = sign * LIMIT - (low + wide if sign > 0 else low) + rest
            self.tell('set', 1, i, other, other)
            self.tell('set', 2, i, 0, 0)
            self.tell('set', 3, i, *(lambda near: (near, near + self.pick(0, 0, 1)))(sign * (LIMIT - self.pick(0, 1, 1, 2, 9))))
        if n > 1 and self.chance(0.5):
            # The cells of column 3 add up to the limit, so that a sum finds it.
            wide, bound = self.pick(0, 3, 3), self.pick(0, 1)
            goal = self.pick(LIMIT, -LIMIT) + self.pick(0, 0, 0, 1, -1)
            parts = [self.random.randint(-9, 9) + goal // n for _ in range(n - 1)]
            for i, part in enumerate([*parts, goal - sum(parts)]):
                self.tell('set', 3, i, part - (wide if bound else 0), part + (0 if bound else wide))
        row = self.random.randrange(n)
        self.tell('set', 2, row, u, u)
        self.tell('begin')
        one, less_one = f'{u}..{u}', f'{-u}..{-u}'
        diagonal = [f'{self.pick(u, u, u, -u)}..{u}' if self.chance(0.2) else one for _ in range(n)]
        self.tell('matrix', 'one', 'band', n, n, 0, 0, 1, *diagonal)
        near = max(1, u - self.pick(0, 0, 0, 1))
        signed = self.pick(1, -1)
        self.tell('matrix', 'half', 'triangle', self.pick('lower', 'upper'), 'one')
        self.tell('matrix', 'whole', 'packed', 'lower', n, *[f'{signed * near}..{signed * near}' if i == j else '0..0' for j in range(n)
                                                             for i in range(j, n)])
        for _ in range(self.random.randint(6, 14)):
            k, x = self.random.sample(range(4), 2)
            alpha, beta = self.pick(one, one, one, less_one, '0..0', f'{u}..{u + 1}', f'{-u}..{u}', f'{-u - 1}..{u}'), self.pick(one, one, less_one,
                                                                                                                                 '0..0')
            call = self.random.randrange(7)
            if call == 0:
                self.tell('blend', *self.pick((0, 1), (1, 0), (k, x)), alpha, beta)
            elif call == 1:
                self.tell('product', *self.pick((0, 1), (1, 0), (k, x)), self.pick('one', 'half', 'whole'), alpha, beta)
            elif call == 2:
                self.tell('dot', self.pick(0, 1, k), row, self.pick(0, 1, 3), 2, alpha, beta)
            elif call == 3:
                self.tell('sum', self.random.randrange(3), self.random.randrange(n), 3)
            elif call == 4:
                self.tell('dot', self.pick(0, 1), row, self.pick(1, 0), 2, one, one)
            else:
                self.tell('solve', self.pick(3, 3, k), self.pick('half', 'whole'), self.pick(alpha, f'{u + 1}..{u + 1}', f'{u - 1}..{u + 1}'))
            if self.sheet.state == 'drafted':
                if self.chance(0.3):
                    self.question()
                self.tell(self.pick('post', 'withdraw', 'withdraw'))

    def tower(self):
        """Layers upon layers under one name, and what is asked of them on the way."""
        name, other = self.random.sample(NAMES, 2)
        self.storage(name)
        for _ in range(self.random.randint(5, 16)):
            self.layer(name, name)
            if self.chance(0.2):
                self.layer(other, name)
            if self.chance(0.25) and self.sheet.state == 'working':
                bound = self.sheet.names[name.encode()]
                if bound.side is not None and self.chance(0.6):
                    self.tell('solve', self.column(), self.pick(name, name, other), self.factor())
                else:
                    self.tell('product', self.column(), self.column(), self.pick(name, name, other), self.factor(), self.factor())
                if self.sheet.state == 'drafted':
                    self.end_draft()

    def step(self):
        state = self.sheet.state
        if self.left <= 0 and state != 'drafted':
            if self.chance(0.45) and not self.fixed_rows:
                self.limit_sheet()
                return
            self.open()
            return
        r = self.random.random()
        if r < 0.03:
            self.malformed()
        elif r < 0.055:
            self.wrong_state()
        elif r < 0.08:
            self.lengths()
        elif r < 0.09:
            self.unfit(self.random.choice(NAMES))
        elif r < 0.11:
            self.layer(self.random.choice(NAMES), self.some_name())
        elif state == 'none':
            self.open()
        elif state == 'filling':
            self.fill()
            for _ in range(self.pick(0, 1, 3)):
                self.tell(*self.words_of('set'))
            if self.chance(0.95):
                self.tell('begin')
        elif state == 'working':
            r = self.random.random()
            if r < 0.68:
                self.call()
            elif r < 0.78:
                self.towards_limit()
            elif r < 0.82 and self.rows <= 40:
                self.tower()
            elif r < 0.99:
                self.question()
            else:
                self.open()
        elif self.chance(0.25):
            self.question()
        else:
            self.end_draft()

    def never_opened(self):
        """A script in which no open is granted."""
        if not self.chance(0.3):
            self.before_open()

    def before_open(self):
        """Lines before there is a sheet. No open among them is granted."""
        for _ in range(self.random.randint(1, 25)):
            r = self.random.random()
            if r < 0.3:
                self.malformed()
            elif r < 0.5:
                self.wrong_state()
            elif r < 0.7:
                self.new_matrix(self.chance(0.5))
            elif r < 0.85:
                self.tell('lengths', self.random.randint(0, 9), self.random.randint(0, 9))
            else:
                self.tell('open', *self.pick((0, 1, 1), (100001, 1, 1), (1, 0, 1), (1, 1025, 1), (-5, 3, 3), (10, 1, 65), (self.huge(), 1, 1)))

    def bring_to(self, state):
        """Leads the sheet to the state that the script shall end in."""
        if self.sheet.lengths is not None:
            self.tell('lengths', '-')
        if self.sheet.state == 'drafted' and state != 'drafted':
            self.end_draft()
        if state == 'filling' and self.sheet.state != 'filling':
            self.open()
            for _ in range(self.pick(0, 2, 6)):
                self.tell(*self.words_of('set'))
        elif state == 'working' and self.sheet.state == 'filling':
            self.tell('begin')
        elif state == 'drafted' and self.sheet.state != 'drafted':
            if self.sheet.state == 'filling':
                self.tell('begin')
            if self.sheet.state == 'working':
                self.tell('copy', self.columns - 1, self.column(0))

    # The tour: every kind of answer that can be brought about on purpose

    def tour(self):
        """Leads through every state, and in each asks for all that it takes and does not take, in every wrong way that there is a list of."""
        self.tour_of_state()
        for line in MALFORMED:
            if len(line) < 10000:
                self.tell_bytes(line)
        for figures in ((0, 0, 0), (-1, 1, 1), (100001, 1, 1), (10 ** 30, 1, 1), (-10 ** 30, 1, 1), (2 ** 32 + 10, 1, 1), (2 ** 64 + 10, 1, 1),
                        (10 - 2 ** 64, 1, 1), (1, 0, 1), (1, 1, 0), (1, 1025, 1), (1, 1, 65), (1, 64, 65), (1, 1024, 5),
                        (1, GREATEST_COUNT, GREATEST_COUNT), (1, 2 ** 32, 2 ** 32), (1, 2 ** 63, 2)):
            self.tell('open', *figures)
        for lengths in ((6, 2), (5, 3), (0, 0), (3, 6), (GREATEST_COUNT, GREATEST_COUNT), (7, 3), (6, 4)):
            self.tell('lengths', *lengths)
            self.tell('open', 10, 3, 2)
        self.tell('lengths', '-')
        for figures in ((241, 17), (64, 64), (1024, 4), (1, 64), (100000, 1)):
            self.tell('open', self.pick(1, 100000), *figures)
        self.tell('lengths', 12, 3)
        self.tell('open', 10, 4, 3)
        self.tell('open', 10, 3, 4)
        self.tell('open', 10, 2, 2)
        self.tell('open', 10, 4, 3)
        self.unit, self.spread = 10, 20
        self.tour_of_state()
        self.tour_of_wrong_places('set')
        for lower, upper in ((1, 0), (0, LIMIT + 1), (-LIMIT - 1, 0), (LIMIT + 1, LIMIT + 2), (10 ** 40, 10 ** 40), (2 ** 32, 2 ** 32 + 1), (2 ** 64, 2 ** 64 + 1), (-2 ** 64, 0)):
            self.tell('set', 3, 2, lower, upper)
        self.tell('set', 3, 2, -LIMIT, LIMIT)
        for k in range(4):
            for i in range(3):
                low = self.random.randint(-30, 30)
                self.tell('set', k, i, low, low + self.random.randint(0, 6))
        for lengths in ((11, 3), (13, 3), (0, 0), (GREATEST_COUNT, 3)):
            self.tell('lengths', *lengths)
            self.tell('begin')
            self.tell('set', 0, 0, 1, 2)
        self.tell('lengths', 12, 99)
        self.tell('begin')
        self.tour_of_state()
        self.tell('lengths', '-')
        self.tour_of_state()
        self.tell('matrix', 'm', 'dense', 3, 3, 3, *[self.place(i, j) for j in range(3) for i in range(3)])
        self.tell('matrix', 't', 'packed', 'lower', 3, '10..10', '1..2', '0..1', '8..10', '-1..1', '-12..-10')
        for word in (*CALLS, *QUESTIONS):
            self.tour_of_wrong_places(word)
        self.tour_of_layouts()
        if self.sheet.state == 'working':
            self.tell('copy', 1, 0)
        self.tour_of_state()
        for word in QUESTIONS:
            self.tour_of_wrong_places(word)
        for lengths in ((11, 3), (12, 2), (12, 4), (0, 0), (GREATEST_COUNT, GREATEST_COUNT)):
            self.tell('lengths', *lengths)
            self.tell('post')
            self.tell('withdraw')
            self.tell('norm1', 0)
        self.tell('lengths', '-')
        self.tell('post')
        self.tour_of_cells()
        self.tour_of_empty()
        self.tour_of_quotients()
        for goal in ((LIMIT, LIMIT), (-LIMIT, 3 - LIMIT), (LIMIT - 3, LIMIT), (-LIMIT, -LIMIT), (LIMIT + 1, LIMIT + 1), (LIMIT - 3, LIMIT + 1),
                     (-LIMIT - 1, 5 - LIMIT),
                     (-LIMIT - 1, LIMIT + 1), (-LIMIT - 1, -LIMIT - 1)):
            self.goal_sheet(*goal)

    def tour_of_cells(self):
        """What becomes of cells that are joined, permuted, blended and asked for, empty ones among them."""
        cells = [(-7, -4), None, (-4, 3), (3, 3), (4, 9), (-3, 0)]
        others = [(-4, -1), (2, 5), (-3, 2), None, (4, 8), None]
        self.tell('open', 10, 6, 3)
        self.unit = 10
        for k, column in enumerate((cells, others)):
            for i, cell in enumerate(column):
                if cell:
                    self.tell('set', k, i, *cell)
        self.tell('begin')
        for words in (('copy', 2, 0), ('join', 2, 1, 'meet'), ('join', 2, 1, 'hull'), ('join', 2, 0, 'meet'), ('copy', 2, 1), ('join', 2, 0, 'meet'),
                      ('copy', 2, 0), ('join', 2, 1, 'hull'),
                      ('permute', 2, 1, 2, 0, 5, 3, 4), ('permute', 2, 5, 0, 1, 2, 3, 4), ('blend', 2, 1, '3..5', '-7..12'), ('blend', 2, 0,
                                                                                                                              '-10..-3', '10..10'),
                      ('blend', 2, 0, '10..10', '-'), ('copy', 2, 1), ('blend', 2, 0, '0..0', '10..10'), ('copy', 2, 0), ('blend', 2, 1, '5..3',
                                                                                                                          '10..10'), ('copy', 2, 0),
                      ('blend', 2, 2, '0..0', '-3..0'), ('copy', 2, 0), ('blend', 2, 2, '0..131072', '0..0')):
            self.tell(*words)
            self.tell('post')
            self.look(2, range(6))
            self.tell('enclosed', *self.pick((2, 0), (0, 2)))
            self.tell('enclosed', *self.pick((2, 1), (1, 2), (2, 2)))
        for column in ([(-3, 0), (2, 5), (-5, -2), (1, 4)], [(-9, 9), (9, 9), (-9, -9), (0, 3)], [(-4, 1), (1, 1), (-1, 5), (5, 5)], [(-LIMIT, LIMIT)] * 4):
            self.tell('open', 7, 4, 2)
            self.unit = 7
            for i, cell in enumerate(column):
                self.tell('set', 0, i, *cell)
                if i:
                    self.tell('set', 1, i, *cell)
            self.tell('begin')
            for k in (0, 1):
                for word in QUESTIONS[:4]:
                    self.tell(word, k)
                self.look(k, range(4))
            self.tell('enclosed', 0, 1)
            self.tell('enclosed', 1, 0)
            self.tell('dot', 1, 2, 0, 0, '7..7', '7..7')
            if self.sheet.state == 'drafted':
                self.tell('post')
            self.tell('dot', 0, 2, 0, 0, '-3..2', '1..3')
            if self.sheet.state == 'drafted':
                self.tell('post')
            self.look(1, [2])
            self.look(0, [2])

    def tour_of_quotients(self):
        """Solves by divisors of both signs, points and wide, of numerators of both signs and of those that cross zero; also in each triangle."""
        numerators = [(-9, -3), (-3, 9), (3, 9), (7, 7), (-7, -7), (0, 0)]
        for divisors in (['2..5'] * 6, ['-5..-2'] * 6, ['3..3', '-3..-3'] * 3, ['1..1', '-1..-1'] * 3, ['-131071..-131071', '1..131071'] * 3):
            self.tell('open', 1, 6, 2)
            self.unit = 1
            for i, cell in enumerate(numerators):
                self.tell('set', 0, i, *cell)
            self.tell('begin')
            self.tell('matrix', 'quot', 'band', 6, 6, 0, 0, 1, *divisors)
            self.tell('matrix', 'quot', 'triangle', self.pick('lower', 'upper'), 'quot')
            for alpha in ('1..1', self.pick('-1..2', '-2..-1')):
                self.tell('copy', 1, 0)
                self.tell('post')
                self.tell('solve', 1, 'quot', alpha)
                if self.sheet.state == 'drafted':
                    self.tell('post')
                    self.look(1, range(6))

    def goal_sheet(self, lower, upper):
        """A sheet on which each of the five calls that work cells out comes to these bounds, which may be a step beyond the limit."""
        u = self.pick(1, 1, 2, 7, 10, 100, 1000, 65535)
        self.tell('open', u, 2, 3)
        self.unit = u
        part = self.random.randint(500, 5000) * (1 if lower > 0 else -1)
        self.tell('set', 0, 0, part, part)
        self.tell('set', 0, 1, part, part)
        if upper - lower > LIMIT:
            self.tell('set', 1, 0, -LIMIT - 1 - part, LIMIT - 5)
        else:
            self.tell('set', 1, 0, lower - part, upper - part)
        self.tell('set', 1, 1, part, part)
        self.tell('set', 2, 0, u, u)
        self.tell('set', 2, 1, 0, 0)
        self.tell('begin')
        one, twice = f'{u}..{u}', f'{2 * u}..{2 * u}'
        self.tell('matrix', 'one', 'dense', 1, 1, 1, one)
        self.tell('matrix', 'half', 'triangle', self.pick('lower', 'upper'), 'one')
        self.tell('matrix', 'minus', 'packed', self.pick('lower', 'upper'), 1, f'{-u}..{-u}')
        for words in (('blend', 0, 1, one, one), ('product', 0, 1, 'one', one, one), ('dot', 0, 0, 1, 2, one, one), ('dot', 0, 0, 2, 1, one, one),
                      ('sum', 0, 0, 1)):
            self.tell(*words)
            if self.sheet.state == 'drafted':
                self.tell('withdraw')
        # The same by a solve: of a column that holds the goal, or of half of it, which is doubled.
        fits = abs(lower) <= LIMIT and abs(upper) <= LIMIT
        self.tell('open', u, 1, 2)
        low, high = (lower, upper) if fits else (lower // 2, -(-upper // 2))
        self.tell('set', 0, 0, low, high)
        self.tell('set', 1, 0, -high, -low)
        self.tell('begin')
        for k, name in ((0, 'half'), (1, 'minus')):
            self.tell('solve', k, name, one if fits else twice)
            if self.sheet.state == 'drafted':
                self.tell('withdraw')

    def tour_of_state(self):
        """Asks for everything that this state does not take, and for each line kind with its format broken in each way."""
        for word in ('open', 'set', 'begin', 'post', 'withdraw', *CALLS, *QUESTIONS):
            if word not in TAKEN[self.sheet.state]:
                self.tell(*self.words_of(word))
        for word in ('open', 'set', 'begin', 'post', 'withdraw', 'lengths', *CALLS, *QUESTIONS):
            words = [str(part) for part in self.words_of(word)]
            line = ' '.join(words)
            for broken in self.random.sample([line + ' ', ' ' + line, line.replace(' ', '  ', 1) + '  ', line + '\r', line.replace(' ', '\t') + '\t',
                                              line + ' x', line + ' -0',
                                              ' '.join(words[:1] + ['0' + words[1]] + words[2:]) if len(words) > 1 else line + ' 00',
                                              ' '.join(words[:-1]) + ' ', line.capitalize(), line + '..'], 2):
                self.tell_bytes(broken.encode())

    def tour_of_wrong_places(self, word):
        """Asks with each choice of wrong columns and rows, and with wrong lengths besides."""
        one = f'{self.unit}..{self.unit}'
        kinds = {'set': 'KIvv', 'dot': 'KIKKff', 'sum': 'KIK', 'blend': 'KKff', 'product': 'KKmff', 'solve': 'Ktf', 'join': 'KKr', 'copy': 'KK',
                 'permute': 'Kp', 'width': 'KI',
                 'middle': 'KI', 'enclosed': 'KK'}.get(word, 'K')
        places = [at for at, kind in enumerate(kinds) if kind in 'KI']
        for choice in range(2 ** len(places)):
            wrong = {place for bit, place in enumerate(places) if choice >> bit & 1}
            words = []
            for at, kind in enumerate(kinds):
                end = {'K': self.columns, 'I': self.rows}.get(kind)
                if end:
                    words.append(self.wrong_count(end) if at in wrong else self.random.randrange(end))
                else:
                    words += {'v': ['7'], 'f': [one], 'm': ['m'], 't': ['t'], 'r': [self.pick('meet', 'hull')], 'p': [1, 2, 0]}[kind]
            n, c = self.rows, self.columns
            wrong_lengths = [(n * c + 1, n), (n * c, n + 1), (0, n), (n * c, 0), (n, n * c), (GREATEST_COUNT, n), (n * c, GREATEST_COUNT)]
            for lengths in [(n * c - 1, n), (n * c, n - 1)] if not choice else [self.random.choice(wrong_lengths)] if self.chance(0.3) else []:
                self.tell('lengths', *lengths)
                self.tell(word, *words)
                self.tell('lengths', '-')
            already = self.sheet.state
            self.tell(word, *words)
            if self.sheet.state == 'drafted' and already == 'working':
                self.tell(self.pick('post', 'withdraw'))

    def tour_of_layouts(self):
        """Product and solve over each storage and layer, of sizes that are less than, as and more than the sheet's; and names and lists that are wrong."""
        n, one = self.rows, f'{self.unit}..{self.unit}'
        self.tell('copy', 3, 2)
        self.tell('post')
        for size in (n, n - 1, 0, n + 1):
            cells = [self.place(i, j) for j in range(size) for i in range(size)]
            packed = [self.place(i, j) for j in range(size) for i in range(j, size)]
            for side in ('lower', 'upper')[:1 if size in (0, n + 1) else 2]:
                other = 'upper' if side == 'lower' else 'lower'
                half = packed if side == 'lower' else [self.place(i, j) for j in range(size) for i in range(j + 1)]
                self.tell('matrix', 'd', 'dense', size, size, max(1, size), *cells)
                self.tell('matrix', 'b', 'band', size, size, 0, 0, 1, *[self.divisor() for _ in range(size)])
                self.tell('matrix', 'p', 'packed', side, size, *half)
                self.tell('matrix', 'o', 'packed', other, size, *[self.place(i, j) for j in range(size) for i in (range(j, size) if other == 'lower'
                                                                                                                  else range(j + 1))])
                self.tell('matrix', 'turned', 'turned', 'o')
                self.tell('matrix', 'unit', 'unit', self.unit, 'p')
                self.tell('matrix', 'triangle', 'triangle', side, 'd')
                self.tell('matrix', 'symmetric', 'symmetric', side, 'b')
                for name in ('d', 'b', 'p', 'turned', 'unit', 'triangle', 'symmetric'):
                    self.over('product', 3, 0, name, one, self.pick(one, '0..0'))
                    if size or name in ('p', 'turned', 'unit', 'triangle'):
                        self.over('solve', 3, name, one)
            for rows, columns in ((size, 1), (1, size), self.pick((size, 2), (2, size))):
                self.tell('matrix', 'r', 'dense', rows, columns, max(1, rows), *[self.place(i, j) for j in range(columns) for i in range(rows)])
                self.over('product', 3, 1, 'r', one, one)
                self.tell('matrix', 'r', *self.pick(('turned',), ('symmetric', 'lower'), ('symmetric', 'upper'), ('triangle', 'lower'), ('triangle',
                                                                                                                                         'upper')), 'r')
                self.over('product', 3, 1, 'r', one, one)
        for figures in HAIRS:
            if len(figures) < 200:
                self.tell('matrix', 'hair', *figures.split(' '))
                if 0 < self.sheet.names[b'hair'].rows <= n:
                    self.over('product', 3, 1, 'hair', one, one)
        for side, other in (('lower', 'upper'), ('upper', 'lower')):
            self.tell('matrix', 'p', 'packed', side, 0)
            self.over('solve', 3, 'p', one)
            self.tell('matrix', 'p', 'turned', 'p')
            self.over('solve', 3, 'p', one)
            self.tell('matrix', 'p', 'packed', side, 2, *(['12..14', '-3..1', '8..8'] if side == 'lower' else ['12..14', '2..3', '-8..-8']))
            self.over('solve', 3, 'p', one)
            self.tell('matrix', 'q', 'turned', 'p')
            self.over('solve', 3, 'q', one)
            self.tell('matrix', 'q', 'triangle', other, 'p')
            self.over('solve', 3, 'q', one)
        for unit in (0, -1, 1, 100000, 100001, 10 ** 20, 2 ** 32 + 10, 2 ** 64 + 10, 20):
            self.tell('matrix', 'one', 'unit', unit, 'p' if unit != 20 else 'triangle')
            self.over('solve', 3, 'one', one)
        for side, at in (('lower', 0), ('upper', 2), ('lower', 5)):
            self.tell('matrix', 'blank', 'packed', side, 3, *['-' if place == at else '10..11' if place in (0, 2, 3, 5) else '1..2'
                                                              for place in range(6)])
            self.tell('solve', self.column(0), 'blank', one)
            if self.sheet.state == 'drafted':
                self.tell('withdraw')
        for side, diagonal in (('lower', ('1..2', '-1..2', '0..0')), ('upper', ('1..2', '-1..2', '0..0')), ('lower', ('0..5', '1..1', '-3..0')),
                               ('upper', ('0..5', '1..1', '-3..0')),
                               ('lower', ('-', '-5..-1', '0..1')), ('upper', ('-1..0', '1..5', '-'))):
            self.tell('matrix', 'zero', 'packed', side, 3, *[diagonal[i] if i == j else '1..2' for j in range(3) for i in (range(j, 3)
                                                                                                                           if side == 'lower'
                                                                                                                           else range(j + 1))])
            self.tell('solve', self.column(0), 'zero', one)
            self.tell('matrix', 'zero', 'turned', 'zero')
            self.tell('solve', self.column(0), 'zero', one)
        self.tell('matrix', 'wraps', 'dense', 3, 1, 3, f'{2 ** 32 + 1}..{2 ** 32 + 1}', f'{2 ** 64 + 1}..{2 ** 64 + 2}', f'1..{2 ** 64 + 1}')
        self.over('product', 3, 1, 'wraps', one, one)
        self.over('product', 3, 1, 'b', f'{2 ** 64 + self.unit}..{2 ** 64 + self.unit}', one)
        self.over('product', 3, 1, 'b', one, f'{-2 ** 32}..{2 ** 32}')
        for name in ('unbound', 'q7'):
            self.tell('product', 0, 0, name, one, one)
            self.tell('solve', 0, name, one)
            for words in (('turned',), ('symmetric', 'lower'), ('triangle', 'upper'), ('unit', 1)):
                self.tell('matrix', name, *words, name)
        for order in ((), (0,), (0, 0, 0), (0, 1, 2, 0), (1, 2, 3), (0, 1, GREATEST_COUNT), (2, 1, 1), (0, 1, 2, 3)):
            self.tell('permute', 1, *order)
        self.tell('matrix', 'flat', 'dense', 0, 3, 1, '1..1', '2..2', '3..3')
        for _ in range(7):
            self.tell('matrix', 'flat', 'turned', 'flat')
            self.over('product', 3, 1, 'flat', one, f'{2 * self.unit}..{2 * self.unit + 1}')
        for base in (('packed', 'lower', 3, '9..10', '-2..3', '1..2', '-10..-8', '3..3', '10..10'),
                     ('dense', 3, 2, 4, '10..10', '1..2', '-3..-3', '-', '4..5', '-9..-9', '0..0', '-')):
            self.tell('matrix', 'tower', *base)
            for kind in ('turned', 'turned', 'triangle', 'unit', 'turned', 'unit', 'turned', 'symmetric', 'turned', 'triangle'):
                self.layer('tower', 'tower', kind)
                if kind in ('turned', 'symmetric') and self.chance(0.7):
                    self.over('product', 3, 1, 'tower', one, one)
                else:
                    self.over('solve', 3, 'tower', one)
            self.tell('matrix', 'twig', 'turned', 'tower')
            self.tell('matrix', 'tower', 'packed', 'lower', 0)
            self.over('product', 3, 1, 'twig', one, one)
        for _ in range(20):
            kinds = [None, 'turned', 'symmetric', 'triangle', 'unit']
            storage = self.pick('dense', 'band', 'packed', 'unfit')
            if storage == 'unfit':
                self.tell('matrix', 'a', *self.pick(('dense', 2, 2, 1, '1..1'), ('band', 1, 1, 0, 0, 0, '1..1'), ('packed', 'lower', 3, '1..1'),
                                                    ('packed', 'upper', 1)))
            else:
                self.storage('a', storage)
            for layer in (self.random.choice(kinds), self.random.choice(kinds), self.random.choice(kinds)):
                if layer:
                    self.layer('a', 'a', layer)
            self.tell('product', self.column(0), self.column(0), 'a', self.factor(), self.factor())
            if self.sheet.state == 'drafted':
                self.end_draft()
            self.tell('solve', self.column(0), 'a', one)
            if self.sheet.state == 'drafted':
                self.end_draft()

    def tour_of_empty(self):
        """Empty operands beside zeros: each of them counts, also under a structural zero."""
        self.tell('open', 1, 3, 3)
        self.unit = 1
        for i, cell in enumerate([(2, 3), None, (0, 0)]):
            if cell:
                self.tell('set', 0, i, *cell)
            self.tell('set', 1, i, i + 1, i + 1)
            self.tell('set', 2, i, i + 1, i + 1)
        self.tell('begin')
        self.tell('matrix', 'diag', 'band', 3, 3, 0, 0, 1, '1..1', '2..2', '4..4')
        self.tell('matrix', 'first', 'dense', 3, 1, 3, '1..1', '0..0', '2..2')
        self.tell('matrix', 'blank', 'dense', 3, 3, 3, '1..1', '0..0', '0..0', '0..0', '-', '0..0', '0..0', '0..0', '1..1')
        self.tell('matrix', 'tri', 'triangle', 'lower', 'diag')
        self.tell('matrix', 'late', 'triangle', 'lower', 'blank')
        self.tell('matrix', 'early', 'triangle', 'upper', 'blank')
        self.tell('matrix', 'unit', 'unit', 1, 'late')
        for words in (('product', 1, 0, 'diag', '1..1', '1..1'), ('product', 1, 0, 'first', '1..1', '1..1'), ('product', 1, 2, 'blank', '1..1',
                                                                                                              '1..1'), ('product', 1, 2, 'diag',
                                                                                                                        '0..0', '0..0'),
                      ('product', 1, 2, 'diag', '-', '0..0'), ('product', 1, 2, 'diag', '1..1', '2..1'), ('product', 0, 2, 'diag', '1..1', '0..0'),
                      ('solve', 1, 'tri', '1..1'),
                      ('solve', 0, 'tri', '1..1'), ('solve', 1, 'late', '1..1'), ('solve', 1, 'early', '1..1'), ('solve', 1, 'unit', '1..1'),
                      ('solve', 1, 'tri', '-'), ('solve', 1, 'late', '0..0'),
                      ('dot', 1, 1, 0, 2, '0..0', '1..1'), ('dot', 1, 1, 2, 0, '1..1', '0..0'), ('dot', 0, 1, 2, 2, '1..1', '0..0'), ('sum', 1, 2,
                                                                                                                                      0), ('sum', 0, 1, 2),
                      ('blend', 1, 0, '0..0', '1..1'), ('blend', 0, 2, '1..1', '0..0')):
            if self.tell(*words) == 'granted':
                self.tell('post')
                self.look(words[1], range(3))
                if words[1] == 0:
                    self.tell('permute', 0, 0, 1, 2)
                    self.tell('withdraw')
                    self.tell('open', 1, 3, 3)
                    for i, cell in enumerate([(2, 3), None, (0, 0)]):
                        if cell:
                            self.tell('set', 0, i, *cell)
                        self.tell('set', 1, i, i + 1, i + 1)
                        self.tell('set', 2, i, i + 1, i + 1)
                    self.tell('begin')
                else:
                    self.tell('copy', 1, 2)
                    self.tell('post')

    def over(self, word, k, *words):
        """A call over a layout, and a look at what it leaves in column k, which is then as it was: column 2 holds the same."""
        if self.tell(word, k, *words) == 'granted':
            self.tell('post')
            if self.sheet.columns[k] != self.sheet.columns[2]:
                self.look(k, self.random.sample(range(self.rows), 2) if self.rows > 2 else None)
                self.tell('copy', k, 2)
                self.tell('post')

    def script(self, tour=False):
        if tour:
            self.tour()
        if not tour and self.wanted < 400 and self.chance(0.04):
            self.never_opened()
        else:
            if self.chance(0.1) and not tour:
                self.before_open()
            if self.fixed_rows:
                self.wanted += 3 * self.fixed_rows       # the sets of one sheet, which are not what was asked for
            while len(self.lines) < self.wanted:
                self.step()
            self.bring_to('drafted' if tour else self.pick('filling', 'working', 'drafted', 'drafted'))
            if self.chance(0.2):
                self.odd_line()
        whole = b''.join(line + b'\n' for line in self.lines)
        if tour:
            return whole + b'norm1 0'                   # cut off: there is no line feed
        if self.chance(0.08) and whole:
            whole = whole[:-1] if self.chance(0.5) else whole[:-self.random.randint(1, min(12, len(whole)))]
        return whole


# Figures that are fit or unfit by a hair.
HAIRS = [
    'dense 2 1 1 1..1 1..1', 'dense 2 1 2 1..1 1..1', 'dense 2 1 2 1..1', 'dense 2 2 2 1..1 1..1 1..1 1..1', 'dense 2 2 3 1..1 1..1 1..1 1..1 1..1',
    'dense 2 2 1 1..1 1..1 1..1 1..1', 'dense 2 2 3 1..1 1..1 1..1 1..1 1..1 1..1', 'dense 0 0 0', 'dense 0 3 0', 'dense 0 0 1',
    'dense 0 3 1 1..1 1..1', 'dense 0 3 1 1..1 1..1 1..1', 'dense 1 0 0', 'dense 1 0 1', 'dense 1024 0 1024', 'dense 1024 0 1023',
    'dense 1025 0 1025', 'dense 1025 0 18446744073709551615', 'dense 0 0 18446744073709551615', 'dense 3 0 18446744073709551615',
    'dense 1 1 18446744073709551615 1..1', 'dense 1 2 9223372036854775808 1..1', 'dense 1 1024 18014398509481984', 'dense 0 1025 1',
    'dense 0 1025 1' + ' 2..3' * 1025, 'dense 0 1024 1' + ' 2..3' * 1024, 'dense 0 1024 1' + ' 2..3' * 1023, 'band 1 1 0 0 0 1..1',
    'band 1 1 0 0 1 1..1', 'band 2 2 1 1 3 -' + ' 2..3' * 5, 'band 2 2 1 1 2' + ' 2..3' * 6, 'band 2 2 1 1 3' + ' 2..3' * 5,
    'band 2 2 0 1 2 - 1..1 2..2 1..1', 'band 2 2 1 0 2 1..1 2..2 1..1 -', 'band 2 2 1 0 1 1..1 2..2 1..1 1..1', 'band 2 0 1023 1023 2047',
    'band 2 0 1024 0 2047', 'band 2 0 0 1024 2047', 'band 2 0 1023 1023 2046', 'band 2 0 18446744073709551615 0 0',
    'band 2 0 18446744073709551615 18446744073709551615 18446744073709551615', 'band 2 0 0 18446744073709551615 18446744073709551615',
    'band 1024 0 0 0 1', 'band 1025 0 0 0 1', 'band 0 1025 0 0 1' + ' 1..1' * 1025, 'band 0 1024 0 0 1' + ' 1..1' * 1024,
    'band 2 3 0 0 6148914691236517206 1..1', 'packed lower 0', 'packed upper 0 1..1', 'packed lower 1', 'packed lower 1 2..2',
    'packed upper 1 2..2 2..2', 'packed upper 2 2..2 1..1 3..3', 'packed lower 2 2..2 1..1', 'packed lower 2 2..2 1..1 3..3 4..4',
    'packed lower 1025', 'packed upper 18446744073709551615', 'packed lower 6074000999 1..1', 'packed lower 4294967296',
    'packed upper 18446744073709551614 1..1',
]

MALFORMED = [
    b'', b' ', b'  ', b'\t', b'\r', b'\x00', b'\xc3\xa9', b'\xff\xfe', b'-', b'..', b'0', b'1..2', b'open', b'open 10', b'open 10 3',
    b'open 10 3 4 5', b'open 10 -3 4', b'open 10 3 18446744073709551616', b'open 010 3 4', b'open -0 3 4', b'open 10 3 4 ', b' open 10 3 4',
    b'open  10 3 4', b'open\t10 3 4', b'open 10 3 4\r', b'Open 10 3 4', b'OPEN 10 3 4', b'open 10 3 four', b'open 1.0 3 4', b'open +1 3 4',
    b'open 10,3,4', b'set 0 0 1', b'set 0 0 1..2', b'set 0 0 - -', b'set 0 0 1 2 3', b'set -1 0 1 2', b'set 0 -0 1 2', b'set 0 0 -0 2',
    b'set 0 0 1 02', b'begin now', b'begin ', b'beginn', b'dot 0 0 1 1 1..1', b'dot 0 0 1 1 1..1 1', b'sum 0 0', b'sum 0 0 1 2', b'blend 0 1 1..1',
    b'blend 0 1 1...1 1..1', b'product 0 1 a 1..1', b'product 0 1 A 1..1 1..1', b'product 0 1 1a 1..1 1..1', b'product 0 1 - 1..1 1..1', b'solve 0 a',
    b'solve 0 a 1', b'solve 0 a 1..1 1..1', b'solve 0 a-b 1..1', b'join 0 1', b'join 0 1 min', b'join 0 1 Meet', b'join 0 1 meet hull', b'copy 0',
    b'copy 0 1 2', b'permute', b'permute -1', b'permute 0 0 -1 1', b'permute 0 00', b'permute 0 18446744073709551616', b'permute 0 1..2', b'post 0',
    b'withdraw 0', b'norm1', b'norm1 0 0', b'norm2 0', b'norminf -', b'largest', b'smallest 0 0', b'width 0', b'middle 0', b'width 0 0 0',
    b'enclosed 0', b'enclosed 0 1 2', b'matrix', b'matrix a', b'matrix a dense', b'matrix a dense 1', b'matrix a dense 1 1', b'matrix a dense 1 1 -1',
    b'matrix a dense 1 1 1 1', b'matrix a dense 1 1 1 1..1 x', b'matrix a dense 1 1 1 --1..1', b'matrix A dense 1 1 1 1..1',
    b'matrix 1 dense 1 1 1 1..1', b'matrix a band 1 1 0 0', b'matrix a band 1 1 0 0 1 ..', b'matrix a packed 1 1..1', b'matrix a packed both 1 1..1',
    b'matrix a packed lower', b'matrix a packed lower 1..1', b'matrix a turned', b'matrix a turned a a', b'matrix a turned A',
    b'matrix a symmetric a', b'matrix a symmetric lower', b'matrix a symmetric left a', b'matrix a triangle upper', b'matrix a triangle a',
    b'matrix a unit a', b'matrix a unit 1', b'matrix a unit 1..1 a', b'matrix a unit -0 a', b'matrix a diagonal 1 1..1', b'matrix a-b turned a',
    b'lengths', b'lengths 1', b'lengths 1 2 3', b'lengths - -', b'lengths 1 -', b'lengths - 1', b'lengths -1 1', b'lengths 0 -0',
    b'lengths 18446744073709551616 1', b'lengths --', b'# a comment', b'sum 0 0 1 # a comment', b'sum,0,0,1', b'sum 0 0 1;', b'"sum" 0 0 1',
    b'open 10 3 4 \xe2\x80\xa8', b'9' * 5000, b'open ' + b'9' * 5000 + b' 1', b'set 0 0 1 ' + b'0' * 3000, b'matrix ' + b'a' * 4000, b'a' * 100000,
]


def random_script(seed, lines=None, rows=None, tour=False):
    """A random script, as bytes. Without a number of lines the seed chooses one. 

    With a tour it begins with one, and ends drafted and cut off.
    """
    if lines is None:
        lines = random.Random(f'length {seed}').choice([3, 10, 30, 60, 100, 100, 150, 250])
    return Maker(seed, lines, rows).script(tour)


def damaged_script(seed):
    """A random script that was damaged, or bytes that were never one."""
    chooser = random.Random(f'damage {seed}')
    if chooser.random() < 0.08:
        some = chooser.choice([bytes(range(256)), b'\n\n \x00\r\t', b'abcdefghijklmnopqrstuvwxyz0123456789.- \n', b'019-.. \n', b'\n'])
        return bytes(chooser.choice(some) for _ in range(chooser.choice([0, 1, 2, 10, 100, 3000])))
    script = random_script(f'damaged {seed}', chooser.choice([5, 20, 60, 120]))
    for _ in range(chooser.choice([1, 1, 2, 3, 5, 10])):
        script = damaged(chooser, script)
    return script


def damaged(chooser, script):
    """The script with one damage more."""
    lines = script.split(b'\n')
    at = chooser.randrange(len(lines))
    words = lines[at].split(b' ')
    place = chooser.randrange(len(script) + 1)
    kind = chooser.randrange(22)
    if kind == 0:                    # one byte is another
        return script[:place] + bytes([chooser.randrange(256)]) + script[place + 1:]
    if kind == 1:                    # some bytes come in
        return script[:place] + bytes(chooser.randrange(256) for _ in range(chooser.randint(1, 40))) + script[place:]
    if kind == 2:                    # some bytes are lost
        return script[:place] + script[place + chooser.randint(1, 40):]
    if kind == 3:                    # the end is cut off
        return script[:place]
    if kind == 4:                    # a line feed is lost
        return b'\n'.join(lines[:at]) + b'\n'.join(lines[at:]) if at else script
    if kind == 5:                    # all line feeds are lost from somewhere on
        return script[:place] + script[place:].replace(b'\n', chooser.choice([b'', b' ', b'\r']))
    if kind == 6:                    # a line comes twice, or very often
        lines[at:at] = [lines[at]] * chooser.choice([1, 1, 2, 50])
        return b'\n'.join(lines)
    if kind == 7:                    # two lines change places
        other = chooser.randrange(len(lines))
        lines[at], lines[other] = lines[other], lines[at]
        return b'\n'.join(lines)
    if kind == 8:                    # two words change places
        one, other = chooser.randrange(len(words)), chooser.randrange(len(words))
        words[one], words[other] = words[other], words[one]
    elif kind in (9, 10, 11):        # a word is a huge number, or nearly one
        words[chooser.randrange(len(words))] = chooser.choice([b'9' * chooser.randint(1, 500), b'18446744073709551615', b'18446744073709551616',
                                                               b'-9223372036854775808',
                                                               b'9223372036854775807', b'9223372036854775808', b'4294967295', b'4294967296',
                                                               b'2147483648', b'-2147483649',
                                                               b'131072', b'-131072', b'0', b'-', b'1' + b'0' * 4400])
    elif kind == 12:                 # a cell is huge
        words[chooser.randrange(len(words))] = chooser.choice([b'1..' + b'9' * chooser.randint(5, 300), b'-' + b'9' * 40 + b'..0', b'131071..131071',
                                                               b'-131071..131071',
                                                               b'-131072..0', b'4294967297..4294967298',
                                                               b'18446744073709551617..18446744073709551617'])
    elif kind == 13:                 # a word is another one's
        others = chooser.choice(lines).split(b' ')
        words[chooser.randrange(len(words))] = chooser.choice(others)
    elif kind == 14:                 # a NUL, a tab, a CR
        words[chooser.randrange(len(words))] += chooser.choice([b'\x00', b'\t', b'\r', b'\x7f', b'\x80', b'\x0b'])
    elif kind == 15:                 # a piece comes again, somewhere else
        start = chooser.randrange(len(script) + 1)
        return script[:place] + script[start:start + chooser.randint(1, 300)] + script[place:]
    elif kind == 16:                 # a very long line
        return script[:place] + chooser.choice([b'a', b' ', b'0', b'9', b' 1..1', b'-', b'\x00', b'.', b' 7']) * chooser.choice([1000, 20000,
                                                                                                                                 200000]) + script[place:]
    elif kind == 17:                 # very many layers
        layers = [chooser.choice([b'matrix a turned a', b'matrix a symmetric lower a', b'matrix a triangle upper a', b'matrix a unit 10 a'])
                  for _ in range(chooser.choice([10, 100, 3000]))]
        lines[at:at] = [b'matrix a packed lower 2 10..10 1..2 10..12'] + layers + [b'product 0 1 a 10..10 10..10', b'solve 0 a 10..10']
        return b'\n'.join(lines)
    elif kind == 18:                 # a line is lost
        lines.pop(at)
        return b'\n'.join(lines)
    elif kind == 19:                 # lines that end as on another system
        return script.replace(b'\n', b'\r\n', chooser.choice([1, 3, -1]))
    elif kind == 20:                 # the lines in any order
        part = lines[at:at + chooser.randint(2, 30)]
        chooser.shuffle(part)
        lines[at:at + len(part)] = part
        return b'\n'.join(lines)
    else:                            # lengths
        lines.insert(at, chooser.choice([b'lengths 0 0', b'lengths -', b'lengths 18446744073709551615 18446744073709551615',
                                         b'lengths 1000000000000 3', b'lengths 6 3',
                                         b'lengths 3 1000000000000000']))
        return b'\n'.join(lines)
    lines[at] = b' '.join(words)
    return b'\n'.join(lines)
