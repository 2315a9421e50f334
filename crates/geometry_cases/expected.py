# What main.rt must print, from the formulas of T.800 Annex B: python3 expected.py > stdout
# Places and code-blocks are listed one by one, with no closed form.

# tile x0, y0, x1, y1; XRsiz, YRsiz; N_L; r; PPx, PPy; xcb, ycb
CASES = [
    ([3, 2, 9, 7], [1, 1], 1, 1, [3, 3], [2, 2]),
    ([9, 2, 17, 7], [1, 1], 2, 0, [15, 15], [2, 2]),
    ([9, 2, 17, 7], [1, 1], 2, 1, [15, 15], [2, 2]),
    ([5, 0, 6, 9], [1, 1], 2, 1, [0, 0], [2, 2]),
    ([3, 2, 9, 7], [1, 1], 1, 1, [0, 3], [2, 2]),
    ([3, 2, 9, 7], [1, 1], 1, 0, [0, 0], [2, 2]),
    ([0, 0, 4294967295, 5], [1, 1], 16, 0, [15, 15], [10, 2]),
    ([0, 0, 4294967295, 5], [1, 1], 17, 0, [15, 0], [10, 2]),
    ([0, 0, 4294967295, 5], [2, 1], 16, 0, [15, 15], [10, 2]),
    ([4294967290, 4294967280, 4294967295, 4294967295], [1, 1], 32, 32, [15, 15], [6, 6]),
    ([0, 0, 4294967295, 4294967295], [1, 1], 32, 0, [0, 0], [6, 6]),
    ([1, 1, 4294967295, 4294967295], [1, 1], 32, 0, [15, 15], [6, 6]),
    ([4294967290, 0, 4294967295, 5], [1, 1], 0, 0, [15, 15], [6, 6]),
    ([1000, 7, 100000, 3000], [255, 254], 3, 2, [4, 5], [3, 2]),
    ([3, 2, 9, 7], [1, 1], 1, 2, [3, 3], [2, 2]),
    ([3, 2, 9, 7], [1, 1], 33, 2, [3, 3], [2, 2]),
    ([13, 2, 60, 40], [1, 1], 2, 0, [2, 2], [2, 3]),
    ([43, 5, 200, 90], [3, 1], 1, 0, [3, 2], [2, 2]),
    ([4294900000, 10, 4294930000, 12], [1, 1], 0, 0, [15, 15], [10, 2]),
    ([0, 0, 70000, 3], [1, 1], 0, 0, [0, 1], [4, 4]),
    ([3, 2, 9, 7], [0, 1], 1, 1, [3, 3], [2, 2]),
    ([3, 2, 9, 7], [1, 1], 1, 1, [3, 16], [2, 2]),
    ([9, 2, 3, 7], [1, 1], 1, 1, [3, 3], [2, 2]),
]


def ceil_div(a, b):
    return -(-a // b)


def rect(label, r):
    x0, y0, x1, y1 = r
    return f"{label} {x0},{y0},{x1},{y1} area {max(0, x1 - x0) * max(0, y1 - y0)}"


# the places of n precincts in one direction: each is the next multiple of d above the one before
def places(x0, d, u0, p, n):
    x = x0
    if x % d != 0 and u0 % p == 0:
        x = (x // d + 1) * d
    listed = []
    for _ in range(n):
        listed.append(x)
        x = (x // d + 1) * d
    return listed


# the cells of the grid of step w, cut by [a, b), those that are not empty
def cells(w, a, b):
    near = range(max(0, a // w - 2), b // w + 3) if a < b else []
    cut = [(max(i * w, a), min((i + 1) * w, b)) for i in near]
    return [(s, e) for s, e in cut if s < e]


class Resolution:
    def __init__(self, tile, steps, levels, r, exponents, blocks):
        self.tile, self.steps, self.levels, self.r = tile, steps, levels, r
        self.exponents, self.blocks = exponents, blocks
        self.component = [ceil_div(tile[i], steps[i % 2]) for i in range(4)]
        self.edges = [ceil_div(e, 2 ** (levels - r)) for e in self.component]
        self.level = levels if r == 0 else levels + 1 - r
        self.halved = [e if r == 0 else max(e - 1, 0) for e in exponents]
        self.counts = [self.count(d) for d in (0, 1)]
        self.total = self.counts[0] * self.counts[1]
        self.fault = self.refusal()
        if self.fault is None and self.total > 0:
            self.places = [
                places(tile[d], self.stride(d), self.edges[d], 2 ** exponents[d], self.counts[d])
                for d in (0, 1)
            ]

    def count(self, d):
        a, b, p = self.edges[d], self.edges[d + 2], 2 ** self.exponents[d]
        return ceil_div(b, p) - a // p if a < b else 0

    def stride(self, d):
        return self.steps[d] * 2 ** (self.exponents[d] + self.levels - self.r)

    def cover(self, d, k):
        side = 2 ** self.halved[d]
        start = self.edges[d] // 2 ** self.exponents[d] * side
        return start + k * side, start + (k + 1) * side

    def refusal(self):
        if self.total == 0:
            return None
        for d in (0, 1):
            e = self.exponents[d]
            if (self.r > 0 and e == 0) or e + self.levels - self.r >= 32 or self.stride(d) >= 2**32:
                return 17
        for d in (0, 1):
            if any(self.cover(d, k)[1] >= 2**32 for k in range(self.counts[d])):
                return 18
        return None

    # a fault's number, or the precinct's place and rectangle
    def precinct(self, k):
        if k >= self.total:
            return 22
        if self.fault is not None:
            return self.fault
        i, j = k % self.counts[0], k // self.counts[0]
        (x0, x1), (y0, y1) = self.cover(0, i), self.cover(1, j)
        return self.places[0][i], self.places[1][j], (x0, y0, x1, y1)

    def show_precinct(self, k):
        p = self.precinct(k)
        if isinstance(p, int):
            return f"precinct fault {p}"
        return f"precinct {k} at {p[0]},{p[1]} " + rect("covers", p[2])

    def band(self, name):
        if (name == "LL") != (self.r == 0):
            return None
        n, offsets = self.level, [int(c == "H") for c in name]
        half = [2 ** (n - 1) * o if o else 0 for o in offsets]
        return [max(0, ceil_div(self.component[i] - half[i % 2], 2**n)) for i in range(4)]

    def show_blocks(self, name, k):
        band = self.band(name)
        p = 22 if band is None else self.precinct(k)
        if isinstance(p, int):
            return [f"blocks fault {p}"]
        x0, y0, x1, y1 = p[2]
        size = [2 ** min(self.blocks[d], self.halved[d]) for d in (0, 1)]
        columns = cells(size[0], max(x0, band[0]), min(x1, band[2]))
        rows = cells(size[1], max(y0, band[1]), min(y1, band[3]))
        listed = [(a, c, b, d) for c, d in rows for a, b in columns]
        n = len(listed)
        lines = [f"blocks {len(columns)} x {len(rows)} = {n}"]
        for i in (0, n // 2, n):
            lines.append(rect("block", listed[i]) if i < n else "no block")
        return lines

    def show(self):
        lines = [rect("component tile", self.component), rect("resolution", self.edges)]
        lines.append(f"level {self.level} bands {1 if self.r == 0 else 3}")
        lines.append(f"precincts {self.counts[0]} x {self.counts[1]}")
        if self.fault is not None:
            lines.append(f"precincts fault {self.fault}")
        number = self.total if self.fault is None else 0
        lines.append(f"accepted {number}")
        last = max(number - 1, 0)
        lines += [self.show_precinct(k) for k in (0, 1, last, number)]
        size = [2 ** min(self.blocks[d], self.halved[d]) for d in (0, 1)]
        lines.append(f"size {size[0]} x {size[1]}")
        for name in ("LL", "HL", "LH", "HH"):
            band = self.band(name)
            lines.append("band fault 22" if band is None else rect("band", band))
            lines += self.show_blocks(name, 0) + self.show_blocks(name, last)
        return lines


def show(tile, steps, levels, r, exponents, blocks):
    if levels > 32:
        return ["too many levels"]
    if r > levels:
        return ["resolution fault 22"]
    if 0 in steps or max(exponents) > 15:
        return ["out of range"]
    return Resolution(tile, steps, levels, r, exponents, blocks).show()


for number, case in enumerate(CASES):
    print(f"case {number}")
    for line in show(*case):
        print(line)
