#!/usr/bin/env python3
"""What documents 01 and 02 say of the lines of surveys/stdin: a model written from these alone, which shares nothing with the library.

    crates/surveys/model.py < crates/surveys/stdin > crates/surveys/stdout

It is slow and direct, and no part of the gate: the gate compares the compiled library with the stored file.
"""
import itertools
import sys

LENGTH, RECORDS = 2064, 256
MOST_MARGIN = 1000000


# ---- the site image

def word(b, at):
    return b[at] | b[at + 1] << 8


def put_word(b, at, n):
    b[at], b[at + 1] = n & 255, n >> 8


def record(k):
    return 16 + 8 * (k - 1)


def chain(b, first):
    """The records of a chain, or None where it names no record or one twice."""
    ks, k = [], word(b, first)
    while k:
        if k > RECORDS or k in ks:
            return None
        ks.append(k)
        k = word(b, record(k) + 4)
    return ks


def link(b, k):
    at = record(k)
    return b[at], b[at + 1], word(b, at + 2)


def site(b):
    """N and the links, or None where a rule is broken."""
    if len(b) != LENGTH or b[1] or any(b[8:16]) or not 1 <= b[0] <= 48:
        return None
    used, free = chain(b, 2), chain(b, 4)
    if used is None or free is None or sorted(used + free) != list(range(1, RECORDS + 1)):
        return None
    if any(b[record(k) + 6] or b[record(k) + 7] for k in used + free):
        return None
    if any(any(b[record(k):record(k) + 4]) for k in free):
        return None
    links = [link(b, k) for k in used]
    if len(links) != word(b, 6) or any(not (1 <= u < v <= b[0] and w) for u, v, w in links):
        return None
    if any(not a[:2] < c[:2] for a, c in zip(links, links[1:])):
        return None
    return b[0], links


def begin(b, n):
    if len(b) != LENGTH:
        return 1
    if not 1 <= n <= 48:
        return 7
    b[:] = bytes(LENGTH)
    b[0] = n
    put_word(b, 4, 1)
    for k in range(1, RECORDS):
        put_word(b, record(k) + 4, k + 1)
    return 0


def bad_ends(n, u, v):
    return not (1 <= u <= n and 1 <= v <= n) or u == v


def slot(ks, i):
    """Where the number of record i of a chain of links stands."""
    return 2 if i == 0 else record(ks[i - 1]) + 4


def add(b, u, v, w):
    s = site(b)
    if s is None:
        return 1
    n, links = s
    if bad_ends(n, u, v):
        return 2
    if w == 0:
        return 3
    u, v = sorted((u, v))
    if any(x[:2] == (u, v) for x in links):
        return 4
    k = word(b, 4)
    if k == 0:
        return 6
    ks, i = chain(b, 2), sum(x[:2] < (u, v) for x in links)
    put_word(b, 4, word(b, record(k) + 4))
    b[record(k)], b[record(k) + 1] = u, v
    put_word(b, record(k) + 2, w)
    put_word(b, record(k) + 4, ks[i] if i < len(ks) else 0)
    put_word(b, slot(ks, i), k)
    put_word(b, 6, len(links) + 1)
    return 0


def remove(b, u, v):
    s = site(b)
    if s is None:
        return 1
    n, links = s
    if bad_ends(n, u, v):
        return 2
    pairs = [x[:2] for x in links]
    if tuple(sorted((u, v))) not in pairs:
        return 5
    ks, i = chain(b, 2), pairs.index(tuple(sorted((u, v))))
    put_word(b, slot(ks, i), ks[i + 1] if i + 1 < len(ks) else 0)
    b[record(ks[i]):record(ks[i]) + 8] = bytes(8)
    put_word(b, record(ks[i]) + 4, word(b, 4))
    put_word(b, 4, ks[i])
    put_word(b, 6, len(links) - 1)
    return 0


# ---- the kinds

class Problem:
    """A kind with its parameter, for N and links; the margin is "added to A in all kinds". `squares` are (factor, constant, coefficients by bit), `products` (factor, bit, bit)."""

    def __init__(self, n, links, parameter, margin):
        self.n, self.links, self.p = n, links, parameter
        self.a = self.penalty() + margin
        self.squares, self.products = [], []
        self.build()

    def one_hot(self, bits):
        self.squares.append((self.a, 1, {b: -1 for b in bits}))

    def energy(self, x):
        squares = sum(a * (c + sum(z * x[b] for b, z in f.items())) ** 2 for a, c, f in self.squares)
        return squares + sum(a * x[i] * x[j] for a, i, j in self.products)

    def table(self):
        """The constant, and the numbers by pairs (i, j) with i <= j."""
        constant, numbers = 0, {}

        def more(i, j, z):
            pair = min(i, j), max(i, j)
            numbers[pair] = numbers.get(pair, 0) + z
        for a, c, f in self.squares:
            constant += a * c * c
            for b, z in f.items():
                more(b, b, a * (2 * c * z + z * z))
            for (b, z), (d, y) in itertools.combinations(f.items(), 2):
                more(b, d, 2 * a * z * y)
        for a, i, j in self.products:
            more(i, j, a)
        return constant, numbers

    def part(self, x, v):
        return list(x[(v - 1) * self.p:v * self.p])


class Choices(Problem):
    def bit(self, v, i):
        return (v - 1) * self.p + i - 1

    def build(self):
        self.bits = self.n * self.p
        for v in range(1, self.n + 1):
            self.one_hot([self.bit(v, i) for i in range(1, self.p + 1)])
        self.build_rest()

    def is_plan(self, plan):
        return len(plan) == self.n and all(1 <= c <= self.p for c in plan)

    def code(self, plan):
        x = [0] * self.bits
        for v, c in enumerate(plan, 1):
            x[self.bit(v, c)] = 1
        return x


class Channels(Choices):
    least, most = 1, 16

    def penalty(self):
        return 1 + max(sum(w for u, v, w in self.links if m in (u, v)) for m in range(1, self.n + 1))

    def build_rest(self):
        self.products = [(w, self.bit(u, i), self.bit(v, i)) for u, v, w in self.links for i in range(1, self.p + 1)]

    def weight(self, plan):
        return sum(w for u, v, w in self.links if plan[u - 1] == plan[v - 1])

    def heard(self, x, plan, v, i):
        """The total weight of links of v to neighbours bearing i: lower ones as mended, higher ones as their bits came."""
        total = 0
        for a, b, w in self.links:
            if v in (a, b):
                other = a + b - v
                bears = plan[other - 1] == i if other < v else x[self.bit(other, i)]
                total += w if bears else 0
        return total

    def decode(self, x):
        plan = []
        for v in range(1, self.n + 1):
            part = self.part(x, v)
            if not any(part):
                part = [-self.heard(x, plan, v, i) for i in range(1, self.p + 1)]
            plan.append(part.index(max(part)) + 1)
        repaired = sum(sum(self.part(x, v)) != 1 for v in range(1, self.n + 1))
        return self.weight(plan), repaired, plan


class Groups(Choices):
    least, most = 2, 16

    def penalty(self):
        return 1 + 2 * sum(w for *_, w in self.links)

    def build_rest(self):
        meters = range(1, self.n + 1)
        for g, h in itertools.combinations(range(1, self.p + 1), 2):
            sizes = {self.bit(v, g): 1 for v in meters}
            sizes.update({self.bit(v, h): -1 for v in meters})
            self.squares.append((self.a, 0, sizes))
        for u, v, w in self.links:
            for g in range(1, self.p + 1):
                self.squares.append((w, 0, {self.bit(u, g): 1, self.bit(v, g): -1}))

    def is_plan(self, plan):
        return super().is_plan(plan) and len({list(plan).count(g) for g in range(1, self.p + 1)}) == 1

    def weight(self, plan):
        return sum(w for u, v, w in self.links if plan[u - 1] != plan[v - 1])

    def decode(self, x):
        parts = [self.part(x, v) for v in range(1, self.n + 1)]
        plan = [part.index(1) + 1 if sum(part) == 1 else 0 for part in parts]
        return (self.weight(plan), 0, plan) if self.is_plan(plan) else None


class Tree(Problem):
    least, most = 1, 47

    def penalty(self):
        return 1 + sum(w for *_, w in self.links)

    def build(self):
        self.deepest = d = self.n // 2
        self.arcs = [arc for u, v, w in self.links for arc in ((u, v, w), (v, u, w))]
        self.bits = self.n * (d + 1) + len(self.arcs) * d + self.n * self.p
        meters, depths, counts = range(1, self.n + 1), range(1, d + 1), range(1, self.p + 1)
        self.one_hot([self.at_depth(v, 0) for v in meters])
        for v in meters:
            self.one_hot([self.at_depth(v, i) for i in range(d + 1)])
            self.one_hot([self.count(v, j) for j in counts])
            for i in depths:
                entries = {self.arc(k, i): -1 for k, (_, child, _) in enumerate(self.arcs) if child == v}
                self.squares.append((self.a, 0, {self.at_depth(v, i): 1, **entries}))
            both = {self.arc(k, i): -1 for k, arc in enumerate(self.arcs) if v in arc[:2] for i in depths}
            self.squares.append((self.a, 0, {**{self.count(v, j): j for j in counts}, **both}))
        for k, (u, v, w) in enumerate(self.arcs):
            for i in depths:
                own = self.arc(k, i)
                self.products += [(2 * self.a + w, own, own), (-self.a, own, self.at_depth(u, i - 1)), (-self.a, own, self.at_depth(v, i))]

    def at_depth(self, v, i):
        return (v - 1) * (self.deepest + 1) + i

    def arc(self, k, i):
        return self.n * (self.deepest + 1) + k * self.deepest + i - 1

    def count(self, v, j):
        return self.n * (self.deepest + 1) + len(self.arcs) * self.deepest + (v - 1) * self.p + j - 1

    def depth(self, plan, v, steps):
        """0 at the root, else one more than the parent's; None where the steps run out."""
        if steps == 0:
            return None
        if plan[v - 1] == 0:
            return 0
        above = self.depth(plan, plan[v - 1], steps - 1)
        return None if above is None else above + 1

    def neighbours(self, plan, v):
        return list(plan).count(v) + (plan[v - 1] != 0)

    def is_plan(self, plan):
        meters, pairs = range(1, self.n + 1), [x[:2] for x in self.links]
        if len(plan) != self.n or list(plan).count(0) != 1:
            return False
        if any(q and tuple(sorted((q, v))) not in pairs for v, q in enumerate(plan, 1)):
            return False
        depths = [self.depth(plan, v, self.n) for v in meters]
        return all(d is not None and d <= self.deepest for d in depths) and all(self.neighbours(plan, v) <= self.p for v in meters)

    def code(self, plan):
        x = [0] * self.bits
        for v, q in enumerate(plan, 1):
            depth = self.depth(plan, v, self.n)
            x[self.at_depth(v, depth)] = 1
            x[self.count(v, self.neighbours(plan, v))] = 1
            if q:
                k = [arc[:2] for arc in self.arcs].index((q, v))
                x[self.arc(k, depth)] = 1
        return x

    def weight(self, plan):
        return sum(w for u, v, w in self.links if plan[u - 1] == v or plan[v - 1] == u)

    def decode(self, x):
        plan = [0] * self.n
        for k, (u, v, _) in enumerate(self.arcs):
            if any(x[self.arc(k, i)] for i in range(1, self.deepest + 1)):
                plan[v - 1] = u
        return (self.weight(plan), 0, plan) if self.is_plan(plan) and self.code(plan) == list(x) else None


KINDS = {1: Channels, 2: Groups, 3: Tree}


def problem(b, kind, parameter, margin):
    """The problem, or the number of the refusal: 18 "margin too large, after 7"."""
    s = site(b)
    if s is None:
        return 1
    if kind not in KINDS or not KINDS[kind].least <= parameter <= KINDS[kind].most or kind == 3 and s[0] == 1:
        return 7
    if margin > MOST_MARGIN:
        return 18
    p = KINDS[kind](*s, parameter, margin)
    return 8 if p.bits > 8192 else p


# ---- the lines

def digits(x):
    return ''.join(map(str, x))


def altered(old, new):
    return sum(a != b for a, b in zip(old, new))


def edit(b, name, n):
    old = bytes(b)
    returned = begin(b, n[0]) if name == 'begin' else remove(b, n[0], n[1]) if name == 'remove' else add(b, *n[:3])
    return f'{returned}, altered {altered(old, b)}'


def tried(b, at, byte):
    if at < len(b):
        b[at] = byte
    old = bytes(b)
    numbers = f'check {int(site(b) is None)}, add {add(b, 3, 4, 9)}, remove {remove(b, 1, 2)}, read {int(site(b) is None)}'
    return f'{numbers}, altered {altered(old, b)}'


def kind(p):
    return ' '.join([f'refused {p}'] * 3) if isinstance(p, int) else f'{p.bits} {p.table()[0]} {p.a}'


def fill(p, i, room):
    places = [77] * room
    number = p if isinstance(p, int) else 10 if i >= p.bits else 9 if room < p.bits - i else 0
    length = 0 if number else p.bits - i
    if not number:
        numbers = p.table()[1]
        places[:length] = [numbers.get((i, j), 0) for j in range(i, p.bits)]
    return ' '.join(map(str, [number, length, number, 0] + places[:12]))


def decode(p, x, room):
    plan = [7] * room
    number = p if isinstance(p, int) else 9 if len(x) != p.bits else 11 if any(b > 1 for b in x) else 0
    energy = f'refused {number}' if number else str(p.energy(x))
    if not isinstance(p, int) and room != p.n:
        number = 9
    answer = None if number else p.decode(x)
    if answer is None:
        return f'{energy} refused {number or 12} {digits(plan)}'
    return f'{energy} {answer[0]} {answer[1]} {digits(answer[2])}'


def encode(p, plan, room):
    number = p if isinstance(p, int) else 9 if len(plan) != p.n or room != p.bits else 0 if p.is_plan(plan) else 12
    return f'{number} {digits([7] * room if number else p.code(plan))}'


def best(p, name, length, bits, top, count):
    energies, plans = [], 0
    words = list(itertools.product(range(top + 1), repeat=length if name == 'plans' else bits))
    assert len(words) == count
    for w in words:
        if name == 'minimum':
            energies.append(p.energy(w))
            plans += p.decode(w) is not None
        elif p.is_plan(w):
            energies.append(p.energy(p.code(w)))
            plans += 1
    least = f', least energy {min(energies)}' if energies else ''
    return f'of {count} plans {plans}, give 12 {count - plans}{least}'


def answer(b, words, margin):
    """What the library is to answer, None where it answers nothing; b becomes what it leaves."""
    name, n = words[0], [int(w) for w in words[1:] if w.isdigit()]
    if name in ('begin', 'add', 'remove'):
        return edit(b, name, n)
    if name == 'circle':
        return f'accepted {sum(add(b, k % n[0] + 1, (k + n[1]) % n[0] + 1, n[2]) == 0 for k in range(n[3]))}'
    if name == 'try':
        return tried(bytearray(b), *n)
    if name == 'image':
        meters, links = site(b)
        return f'0, meters {meters}' + ''.join(f', {u}-{v} {w}' for u, v, w in links)
    if name == 'set':
        b[n[0]] = n[1]
        return None
    p = problem(b, n[0], n[1], margin)
    if name == 'kind':
        return kind(p)
    if name == 'fill':
        return fill(p, n[2], n[3])
    if name in ('decode', 'encode'):
        return (decode if name == 'decode' else encode)(p, [int(c) for c in words[3]], n[3])
    return best(p, name, *n[2:])


def main():
    image, lent, margin = bytearray(LENGTH + 1), LENGTH, 0
    for line in sys.stdin.read().splitlines():
        words = line.split(' ')
        said = None
        if words[0] == 'lend':
            lent = int(words[1])
        elif words[0] == 'with':
            margin = int(words[1])
        elif line and words[0] != '#':
            b = bytearray(image[:lent])
            said = answer(b, words, margin)
            image[:lent] = b
        print(line if said is None else f'{line}: {said}')


main()
