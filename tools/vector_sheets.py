"""The sheets that tools/vectors writes: formulas from the literature, some of them changed,
a few of our own, and random ones.

Each function yields the sheets of one family, or of one formula with its changes; their
comment lines name the source, or say that there is none. Nothing here asks whether a sheet
is true.
"""

import itertools
import random
import re
import typing


class Sheet(typing.NamedTuple):
    """Blocks are pairs of a quantifier, a or e, and names; a clause is a line of names, a
    minus before those that are wanted off. Variables are numbered in the order of `names`."""

    name: str
    about: list
    blocks: list
    clauses: list
    names: list

    def text(self):
        lines = [f"c {line}" for line in self.about]
        lines.append(f"p cnf {len(self.names)} {len(self.clauses)}")
        numbers = {name: str(k) for k, name in enumerate(self.names, 1)}
        numbers |= {f"-{name}": f"-{number}" for name, number in numbers.items()}
        for kind, names in self.blocks:
            lines.append(" ".join([kind, *(numbers[name] for name in names), "0"]))
        for clause in self.clauses:
            lines.append(" ".join([*(numbers[literal] for literal in clause.split()), "0"]))
        return "\n".join(lines) + "\n"

    def check(self):
        """Stops where the sheet is outside the limits."""
        named = [name for _, names in self.blocks for name in names]
        reports = sum(len(names) for kind, names in self.blocks if kind == "a")
        assert sorted(named) == sorted(self.names), self.name
        assert len(named) <= 24 and reports <= 12 and len(self.clauses) <= 256, self.name
        for clause in self.clauses:
            variables = [literal.lstrip("-") for literal in clause.split()]
            assert len(set(variables)) == len(variables) > 0, self.name


def sheet(name, about, blocks, clauses, names=None):
    """Joins blocks of one kind that stand side by side, and drops empty ones."""
    joined = []
    for kind, group in itertools.groupby((block for block in blocks if block[1]), lambda b: b[0]):
        joined.append((kind, [name for _, names in group for name in names]))
    names = names or [name for _, names in joined for name in names]
    return Sheet(name, about, joined, list(clauses), names)


def numbered(stem, first, last):
    return [f"{stem}{k}" for k in range(first, last + 1)]


def negated(literals):
    return " ".join(f"-{literal}" for literal in literals)


def full_clause(names, values):
    """The clause that is broken at these values alone."""
    return " ".join("-" * value + name for name, value in zip(names, values))


def parity(names, odd):
    """The clauses that say whether an odd number of the names is on."""
    for values in itertools.product((0, 1), repeat=len(names)):
        if sum(values) % 2 != odd:
            yield full_clause(names, values)


def breaks(names, values, clause):
    """Whether the clause is broken at these values."""
    return not any(
        literal == name if value else literal == f"-{name}"
        for literal in clause.split()
        for name, value in zip(names, values)
    )


def full_form(names, clauses):
    """The clauses over all the names, one for each line that breaks a rule."""
    for values in itertools.product((0, 1), repeat=len(names)):
        if any(breaks(names, values, clause) for clause in clauses):
            yield full_clause(names, values)


def certificate():
    """Small formulas of a paper on certificates, under orders of their quantifiers."""
    paper = "Stephan and da Mota, Base litterale et certificat pour les formules booleennes"
    about = [f"{paper} quantifiees, 2008"]
    kinds = {"a": "a", "b": "e", "c": "a", "d": "e"}
    clauses = ["b c", "-b -c d", "-a -b c -d", "a -b c d"]
    full = list(full_form("abcd", clauses))
    formula = "(c or b) and (b implies ((c implies d) and (c or (a iff not d))))"
    for order in map("".join, itertools.permutations("abcd")):
        kept = "" if order == "abcd" else ", the quantifiers in another order"
        blocks = [(kinds[name], [name]) for name in order]
        words = [*about, formula, f"variables a, b, c, d in the order {order}{kept}"]
        yield sheet(f"certificate-{order}", words, blocks, clauses, list("abcd"))
        words = [*words, "as clauses over all four variables"]
        yield sheet(f"certificate-{order}-full", words, blocks, full, list("abcd"))
    for order in map("".join, itertools.permutations("xyz")):
        kept = "" if order in ("yxz", "zyx") else ", the quantifiers in another order"
        blocks = [("a" if name == "z" else "e", [name]) for name in order]
        words = [*about, f"(x or y) iff z, variables x, y, z in the order {order}{kept}"]
        yield sheet(f"certificate-{order}", words, blocks, ["-x z", "-y z", "x y -z"], list("xyz"))


# The prefix and the clauses of each formula, with variables by their numbers here.
DEPQBF = {
    "basic-api-example": [
        ("a 1 e 2", "1 -2, -1 2"),
        ("a 1 e 2", "1 -2, -1 2, 1 2"),
    ],
    "basic-api-example2": [
        ("e 1 a 2 e 3", "3, -1 -2, 1 2"),
        ("e 1 a 2 e 3", "3, 1 -2, -1 2"),
        ("e 1 a 2 e 3", "3"),
    ],
    "basic-api-example3": [
        ("a 1 3 e 2", "1 -2, -1 2"),
        ("a 1 3 e 2", "1 -2, -1 2, 1 2"),
    ],
    "basic-manual-selectors": [
        ("e 3 4 a 1 e 2", "3 1 -2, 4 -1 2"),
        ("e 3 4 a 1 e 2", "3 1 -2, 4 -1 2, -3, -4"),
        ("e 3 4 5 a 1 e 2", "3 1 -2, 4 -1 2, 5 1 2, -3, -4, -5"),
        ("e 3 4 5 a 1 e 2", "3 1 -2, 4 -1 2, 5 1 2, -3, -4, 5"),
    ],
    "basic-clause-groups-api-example": [
        ("a 1 2 e 3 4", "-1 -3, 1 2 4, 1 -4"),
        ("a 1 2 e 3 4", "-1 -3"),
        ("a 1 2 e 3 4", "1 2 4, 1 -4"),
    ],
    "basic-clause-groups-api-example-assumptions": [
        ("e 5 6 a 1 2 e 3 4", "5 -1 -3, 6 1 2 4, 6 1 -4"),
        ("e 5 6 a 1 2 e 3 4", "5 -1 -3, 6 1 2 4, 6 1 -4, -5, -6"),
        ("e 5 6 a 1 2 e 3 4", "5 -1 -3, 6 1 2 4, 6 1 -4, -5, 6"),
        ("e 5 6 a 1 2 e 3 4", "5 -1 -3, 6 1 2 4, 6 1 -4, 5, -6"),
    ],
}


def depqbf():
    """The formulas of DepQBF's examples."""
    for example, formulas in DEPQBF.items():
        about = [f"DepQBF 5.01, examples/{example}.c, Lonsing; its variables numbered anew,"]
        for k, (prefix, clauses) in enumerate(formulas, 1):
            blocks = []
            for word in prefix.split():
                if word in "ae":
                    blocks.append((word, []))
                else:
                    blocks[-1][1].append(word)
            words = [*about, f"and what is assumed as clauses: formula {k} of the example"]
            names = sorted(name for _, names in blocks for name in names)
            yield sheet(f"depqbf-{example}-{k}", words, blocks, clauses.split(", "), names)


def with_changes(name, about, blocks, clauses, dropped):
    """A formula as it stands, with the universal variables first, and without some clauses."""
    names = [name for _, names in blocks for name in names]
    yield sheet(name, about, blocks, clauses)
    kinds = {kind: [n for k, names in blocks if k == kind for n in names] for kind in "ae"}
    words = [*about, "changed: the universal variables moved to the front"]
    yield sheet(f"{name}-front", words, list(kinds.items()), clauses, names)
    for k, clause in enumerate(dropped, 1):
        words = [*about, f"changed: without the clause {clause}"]
        rest = [other for other in clauses if other != clause]
        assert len(rest) == len(clauses) - 1
        yield sheet(f"{name}-without-{k}", words, blocks, rest, names)


def kbkf(t):
    """The formulas of Kleine Buening, Karpinski and Floegel, of 4t + 1 variables."""
    about = [f"Kleine Buening, Karpinski and Floegel, 1995: KBKF of {t}"]
    blocks, clauses = [("e", ["y"])], ["-y", "y -y1_0 -y1_1"]
    last = numbered("f", 1, t)
    for k in range(1, t + 1):
        blocks += [("e", [f"y{k}_0", f"y{k}_1"]), ("a", [f"x{k}"])]
        after = negated(last if k == t else [f"y{k + 1}_0", f"y{k + 1}_1"])
        clauses += [f"y{k}_0 x{k} {after}", f"y{k}_1 -x{k} {after}"]
    for k in range(1, t + 1):
        clauses += [f"x{k} f{k}", f"-x{k} f{k}"]
    dropped = ["-y", f"y{t}_1 -x{t} {negated(last)}", f"x{t} f{t}"]
    yield from with_changes(f"kbkf-{t}", about, [*blocks, ("e", last)], clauses, dropped)


def qparity(n):
    """The opponent's z has to be wrong about the parity of the x."""
    about = [f"Beyersdorff, Chew and Janota, 2015: QParity of {n}"]
    blocks = [("e", numbered("x", 1, n)), ("a", ["z"]), ("e", numbered("t", 2, n))]
    clauses = list(parity(["x1", "x2", "t2"], 0))
    for k in range(3, n + 1):
        clauses += parity([f"t{k - 1}", f"x{k}", f"t{k}"], 0)
    ends = [f"z t{n}", f"-z -t{n}"]
    yield from with_changes(f"qparity-{n}", about, blocks, clauses + ends, ends[1:])


def equality(n):
    about = [f"Beyersdorff, Blinkhorn and Hinde, 2018: Equality of {n}"]
    x, u, t = (numbered(stem, 1, n) for stem in "xut")
    clauses = [f"{a} {b} -{c}" for a, b, c in zip(x, u, t)]
    clauses += [f"-{a} -{b} -{c}" for a, b, c in zip(x, u, t)]
    clauses.append(" ".join(t))
    blocks = [("e", x), ("a", u), ("e", t)]
    yield from with_changes(f"equality-{n}", about, blocks, clauses, [clauses[0], clauses[-1]])


def completion(rows, columns):
    """A row of ones or a column of zeros: which, the opponent says."""
    about = ["Janota and Marques-Silva, 2015: the completion principle CR,"]
    about.append(f"on a table of {rows} rows and {columns} columns; theirs are square")
    a, b = numbered("a", 1, rows), numbered("b", 1, columns)
    cells = [f"x{row}_{column}" for row in a for column in b]
    clauses = [f"{cell} z {row}" for cell, (row, _) in zip(cells, itertools.product(a, b))]
    clauses += [f"-{cell} -z {column}" for cell, (_, column) in zip(cells, itertools.product(a, b))]
    clauses += [negated(a), negated(b)]
    blocks = [("e", cells), ("a", ["z"]), ("e", a + b)]
    dropped = [clauses[0], negated(b)]
    yield from with_changes(f"completion-{rows}x{columns}", about, blocks, clauses, dropped)


def pigeonhole(pigeons, holes):
    about = [f"the pigeonhole principle, Cook; Haken, 1985: {pigeons} pigeons, {holes} holes"]
    places = [[f"p{k}_{hole}" for hole in range(1, holes + 1)] for k in range(1, pigeons + 1)]
    clauses = [" ".join(row) for row in places]
    for column in zip(*places):
        clauses += map(negated, itertools.combinations(column, 2))
    yield sheet(f"pigeonhole-{pigeons}-{holes}", about, [("e", sum(places, []))], clauses)


def colouring(vertices, opponents, edges, seed):
    """Three colours in two bits a vertex; of the four values the last is no colour."""
    rng = random.Random(seed)
    theirs = set(rng.sample(range(1, vertices + 1), opponents))
    pairs = list(itertools.combinations(range(1, vertices + 1), 2))
    pairs = [(one, other) for one, other in pairs if other not in theirs]
    drawn = sorted(rng.sample(pairs, edges))
    about = [f"our own: a graph of {vertices} vertices and {edges} edges in three colours; the"]
    about.append(f"opponent colours {opponents} vertices or leaves them without, each vertex after")
    about.append(f"those of lower number, where no edges lead to the opponent's; seed {seed}")
    blocks = [("a" if v in theirs else "e", [f"h{v}", f"l{v}"]) for v in range(1, vertices + 1)]
    clauses = [negated(names) for kind, names in blocks if kind == "e"]
    for (one, other), values in itertools.product(drawn, ((0, 0), (0, 1), (1, 0))):
        clauses.append(full_clause([f"h{one}", f"l{one}", f"h{other}", f"l{other}"], values * 2))
    yield sheet(f"colouring-{vertices}-{opponents}-{edges}-{seed}", about, blocks, clauses)


# Vertices, those of the opponent, and edges.
COLOURINGS = [
    (6, 2, (6, 8)),
    (8, 2, (8, 10)),
    (10, 2, (10, 13)),
    (12, 2, (12, 16)),
    (12, 3, (10, 14)),
    (12, 4, (10,)),
]

GRAPHS = {
    "cycle6": [(k, (k + 1) % 6) for k in range(6)],
    "complete4": list(itertools.combinations(range(4), 2)),
    "complete5": list(itertools.combinations(range(5), 2)),
    "bipartite33": list(itertools.product(range(3), range(3, 6))),
    "cube": [(k, k | b) for k in range(8) for b in (1, 2, 4) if not k & b],
    "petersen": [
        edge for k in range(5) for edge in ((k, (k + 1) % 5), (k, k + 5), (k + 5, (k + 2) % 5 + 5))
    ],
    "ladder12": [
        edge for k in range(6) for edge in ((k, (k + 1) % 6), (k, k + 6), (k + 6, (k + 1) % 6 + 6))
    ],
}


def tseitin(graph, charge, opponents, last):
    """At each vertex an even number of edges is on, at the first an odd one with the charge."""
    edges = {f"{one}_{other}": (one, other) for one, other in GRAPHS[graph]}
    rng = random.Random(f"{graph} {opponents}")
    theirs = sorted(rng.sample(sorted(edges), opponents))
    about = [f"Tseitin, 1968: the graph {graph}, {len(edges)} edges, charge {charge} at one vertex"]
    where = "last" if last else "first"
    about.append(f"our own: the opponent chooses {opponents} of the edges, and chooses {where}")
    clauses = []
    for vertex in sorted(set(itertools.chain(*GRAPHS[graph]))):
        at = [name for name, ends in edges.items() if vertex in ends]
        clauses += parity(at, charge if vertex == 0 else 0)
    blocks = [("a", theirs), ("e", [name for name in edges if name not in theirs])]
    name = f"tseitin-{graph}-{charge}-{opponents}-{where}"
    yield sheet(name, about, blocks[::-1] if last else blocks, clauses, list(edges))


def drawn_blocks(sizes, kinds):
    """Blocks of so many variables, with kinds such as aea."""
    firsts = itertools.accumulate(sizes, initial=1)
    return [(kind, numbered("v", k, k + size - 1)) for kind, k, size in zip(kinds, firsts, sizes)]


def signed(rng, names):
    return " ".join(rng.choice(("", "-")) + name for name in names)


def shape(blocks):
    """The blocks in a word, such as e10a4e10, and 8xa1e2 where they recur."""
    word = "".join(f"{kind}{len(names)}" for kind, names in blocks)
    unit = re.fullmatch(r"(.+?)\1*", word)[1]
    return word if word == unit else f"{len(word) // len(unit)}x{unit}"


def chen(kinds, sizes, counts, clauses, seed):
    rng = random.Random(seed)
    blocks = drawn_blocks(sizes, kinds)
    about = ["Chen and Interian, a model for random quantified formulas, 2005: of each block a"]
    each = " ".join(map(str, counts))
    about.append(f"clause has so many literals; blocks {shape(blocks)}, literals {each},")
    about.append(f"clauses {clauses}, seed {seed}")
    lines = []
    for _ in range(clauses):
        parts = zip(blocks, counts)
        lines.append(" ".join(signed(rng, rng.sample(names, k)) for (_, names), k in parts))
    name = "-".join(map(str, ("chen", shape(blocks), "of", *counts, clauses, seed)))
    yield sheet(name, about, blocks, lines)


def gent(kinds, sizes, length, clauses, seed):
    rng = random.Random(seed)
    blocks = drawn_blocks(sizes, kinds)
    replies = {name for kind, names in blocks if kind == "e" for name in names}
    names = [name for _, names in blocks for name in names]
    about = ["after Gent and Walsh, Beyond NP: the QSAT phase transition, 1999: clauses of a fixed"]
    about.append("length, drawn again where fewer than two literals are existential;")
    about.append(f"blocks {shape(blocks)}, clauses {clauses}, literals {length}, seed {seed}")
    lines = []
    while len(lines) < clauses:
        variables = rng.sample(names, length)
        if len(replies.intersection(variables)) >= 2:
            lines.append(signed(rng, variables))
    yield sheet(f"gent-{shape(blocks)}-of-{length}-{clauses}-{seed}", about, blocks, lines)


def ratio(variables, clauses, seed):
    rng = random.Random(seed)
    about = ["random 3-SAT, as by Mitchell, Selman and Levesque, 1992:"]
    about.append(f"variables {variables}, clauses {clauses}, seed {seed}")
    names = numbered("v", 1, variables)
    lines = [signed(rng, rng.sample(names, 3)) for _ in range(clauses)]
    yield sheet(f"ratio-{variables}-{clauses}-{seed}", about, [("e", names)], lines)


def hard():
    """Families that are hard for proof systems, at small sizes."""
    for t in range(1, 6):
        yield from kbkf(t)
    for n in (2, 3, 4, 5, 6, 8, 10, 12):
        yield from qparity(n)
    for n in range(1, 9):
        yield from equality(n)
    for rows, columns in ((1, 1), (2, 2), (2, 3), (3, 3), (2, 5), (3, 4), (2, 7), (3, 5)):
        yield from completion(rows, columns)


def combinatorial():
    for pigeons, holes in ((2, 1), (3, 2), (4, 3), (5, 4), (6, 4), (8, 3), (12, 2), (20, 1)):
        yield from pigeonhole(pigeons, holes)
    for pigeons, holes in ((1, 1), (2, 2), (3, 3), (4, 4), (4, 5), (3, 5), (4, 6), (2, 12)):
        yield from pigeonhole(pigeons, holes)
    for vertices, opponents, counts in COLOURINGS:
        for edges, seed in itertools.product(counts, (1, 2, 3)):
            yield from colouring(vertices, opponents, edges, seed)
    for graph, edges in GRAPHS.items():
        for charge, opponents in ((0, 0), (1, 0), (0, 2), (0, 4), (1, 2)):
            yield from tseitin(graph, charge, opponents, False)
        yield from tseitin(graph, 0, 1, True)


# Blocks, literals of each, and numbers of clauses.
CHEN = [
    ("ae", (6, 18), (1, 2), (30, 36, 42, 60)),
    ("ae", (8, 10), (1, 3), (20, 30, 40, 60)),
    ("ae", (5, 15), (2, 3), (140, 180, 220)),
    ("ae", (12, 12), (2, 3), (200, 256)),
    ("eae", (6, 6, 12), (1, 1, 2), (40, 80, 100, 120)),
    ("eae", (8, 8, 8), (1, 1, 1), (20, 40, 60)),
    ("aeae", (3, 9, 3, 9), (1, 1, 1, 1), (40, 50, 60)),
]

# Blocks, literals of a clause, and numbers of clauses.
GENT = [
    ("eae", (10, 4, 10), 3, (30, 60, 75)),
    ("ae" * 3, (2, 6) * 3, 3, (20, 35, 50)),
    ("ae" * 3, (2, 6) * 3, 4, (60, 75, 90)),
    ("ae" * 8, (1, 2) * 8, 5, (60, 90, 120)),
    ("ae" * 8, (1, 2) * 8, 6, (150, 180, 256)),
    ("ea", (12, 12), 7, (60, 80, 200)),
    ("ea" * 10, (1,) * 20, 4, (25, 35, 60)),
    ("ea" * 12, (1,) * 24, 4, (45, 60, 90)),
]


def drawn():
    """Random sheets, on both sides of where they turn false."""
    for kinds, sizes, counts, clauses in CHEN:
        for number, seed in itertools.product(clauses, (1, 2)):
            yield from chen(kinds, sizes, counts, number, seed)
    for kinds, sizes, length, clauses in GENT:
        for number, seed in itertools.product(clauses, (1, 2)):
            yield from gent(kinds, sizes, length, number, seed)
    for variables, clauses in ((16, (60, 68, 76, 90)), (20, (76, 85, 94)), (24, (90, 102, 114))):
        for number, seed in itertools.product(clauses, (1, 2)):
            yield from ratio(variables, number, seed)


def all_sheets():
    yield from certificate()
    yield from depqbf()
    yield from hard()
    yield from combinatorial()
    yield from drawn()
