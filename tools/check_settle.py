#!/usr/bin/env python3
"""What settle should print of a small sheet, worked out from the definitions.

usage: tools/check_settle.py < SHEET
       tools/check_settle.py --compare COUNT [--seed SEED] COMMAND [ARGUMENT ..]

The first form prints it of a sheet's text. The second makes COUNT random texts of
at most 8 positions, after those in EXAMPLES, runs the command on each and compares:
it prints the texts that differ and how many were compared; the status is 1 where
any differs. Nothing is cut short here, so the time is exponential in the positions.
"""

import argparse
import functools
import itertools
import random
import subprocess
import sys

LIMIT = 1_000_000

# Texts, and what they should give.
EXAMPLES = [
    (
        "p cnf 4 4\na 1 0\ne 2 0\na 3 0\ne 4 0\n2 3 0\n-2 -3 4 0\n-2 3 -1 -4 0\n-2 3 1 4 0\n",
        "policies 1\n2 0 on\n2 1 on\n4 0 on\n4 1 on\n4 2 off\n4 3 on\n",
    ),
    (
        "p cnf 3 3\na 1 0\ne 2 3 0\n-3 1 0\n-2 1 0\n3 2 -1 0\n",
        "policies 3\n2 0 off\n2 1 on\n3 0 off\n3 1 on\n",
    ),
    ("p cnf 3 3\ne 2 3 0\na 1 0\n-3 1 0\n-2 1 0\n3 2 -1 0\n", "policies 0\n"),
    ("p cnf 1 0\ne 1 0\n", "policies 2\n1 0 on\n"),
    ("p dnf 1 0\ne 1 0\n", "policies 0\n"),
    ("p cnf 1 0\na 1 0\n", "policies 1\n"),
]


class Sheet:
    """Positions are counted from 0 here, and lines are tuples of booleans."""

    def __init__(self, text):
        lines = [line.split() for line in text.splitlines()]
        lines = [words for words in lines if words and words[0] != "c"]
        _, self.form, length, _ = lines[0]
        self.reports = []
        position = {}
        self.rules = []
        for words in lines[1:]:
            if words[0] in ("a", "e"):
                for variable in words[1:-1]:
                    position[int(variable)] = len(self.reports)
                    self.reports.append(words[0] == "a")
            else:
                literals = [int(word) for word in words[:-1]]
                self.rules.append([(position[abs(x)], x > 0) for x in literals])
        self.length = int(length)
        assert self.length == len(self.reports)

    def kept(self, line):
        holds = [[line[k] == wanted for k, wanted in rule] for rule in self.rules]
        return all(map(any, holds)) if self.form == "cnf" else any(map(all, holds))

    def reports_before(self, position):
        return sum(self.reports[:position])

    def points(self):
        """In listing order, with settings as tuples of booleans."""
        for k in range(self.length):
            if not self.reports[k]:
                for setting in itertools.product((False, True), repeat=self.reports_before(k)):
                    yield k, setting

    def line(self, policy, setting, length):
        """The first values of the policy's line, reports as set."""
        line = []
        for k in range(length):
            seen = setting[: self.reports_before(k)]
            line.append(setting[len(seen)] if self.reports[k] else policy[k, seen])
        return tuple(line)


def solve(sheet):
    """How many policies win, and the policy that is searched, None where none wins."""

    @functools.cache
    def winning(part):
        k = len(part)
        if k == sheet.length:
            return int(sheet.kept(part))
        off, on = winning(part + (False,)), winning(part + (True,))
        return off * on if sheet.reports[k] else off + on

    count = winning(())
    if count == 0:
        return 0, None
    policy = {}
    for k, setting in sheet.points():
        part = sheet.line(policy, setting, k)
        policy[k, setting] = winning(part + (True,)) > 0
    return count, policy


def solve_by_listing(sheet):
    """The same by trying all policies, on before off at each point: the first that
    wins is the one that is searched."""
    points = list(sheet.points())
    settings = list(itertools.product((False, True), repeat=sum(sheet.reports)))
    count, first = 0, None
    for values in itertools.product((True, False), repeat=len(points)):
        policy = dict(zip(points, values))
        if all(sheet.kept(sheet.line(policy, setting, sheet.length)) for setting in settings):
            count += 1
            first = first or policy
    return count, first


def answer(count, policy):
    """What settle prints."""
    lines = [f"policies {min(count, LIMIT)}"]
    for (k, setting), on in (policy or {}).items():
        number = functools.reduce(lambda n, value: 2 * n + value, setting, 0)
        lines.append(f"{k + 1} {number} {'on' if on else 'off'}")
    return "".join(line + "\n" for line in lines)


def random_text(rng):
    """A sheet of 1 to 8 positions with 0 to 10 rules, its variables in any order."""
    length = rng.randint(1, 8)
    kinds = [rng.choice("ae") for _ in range(length)]
    match rng.randrange(8):
        case 0:
            kinds = ["e"] * length
        case 1:
            kinds = ["a"] * length
        case 2 | 3:
            kinds[0] = kinds[-1] = "a"
    variables = rng.sample(range(1, length + 1), length)
    form = rng.choice(("cnf", "dnf"))
    widest = rng.randint(1, length)
    rules = []
    for _ in range(rng.randint(0, 10)):
        width = rng.randint(1, widest) if rng.random() < 0.97 else 0
        named = rng.sample(variables, width)
        rules.append([rng.choice((variable, -variable)) for variable in named])
    lines = [f"p {form} {length} {len(rules)}"]
    for kind, run in itertools.groupby(zip(kinds, variables), lambda pair: pair[0]):
        lines.append(" ".join([kind, *(str(variable) for _, variable in run), "0"]))
    for rule in rules:
        lines.append(" ".join([*map(str, rule), "0"]))
    return "".join(line + "\n" for line in lines)


def wanted(text):
    """The answer to a text; where few policies are possible, both solvers give it."""
    sheet = Sheet(text)
    solved = solve(sheet)
    if len(list(sheet.points())) <= 6:
        assert solved == solve_by_listing(sheet), text
    return answer(*solved)


def compare(count, seed, command):
    for text, expected in EXAMPLES:
        assert wanted(text) == expected, text
    rng = random.Random(seed)
    texts = [text for text, _ in EXAMPLES] + [random_text(rng) for _ in range(count)]
    won = differ = 0
    for text in texts:
        expected = wanted(text)
        won += expected != "policies 0\n"
        run = subprocess.run(command, input=text, stdout=subprocess.PIPE, text=True)
        if run.returncode != 0 or run.stdout != expected:
            differ += 1
            print(f"On\n{text}the command ends with status {run.returncode} and prints")
            print(f"{run.stdout}instead of\n{expected}")
    print(f"{len(texts)} sheets compared, {won} of them with winning policies; {differ} differ")
    return differ == 0


def main():
    parser = argparse.ArgumentParser(description=__doc__.partition("\n")[0])
    parser.add_argument("--compare", type=int, metavar="COUNT")
    parser.add_argument("--seed", type=int, default=1)
    parser.add_argument("command", nargs=argparse.REMAINDER)
    args = parser.parse_args()
    if args.compare is None:
        print(answer(*solve(Sheet(sys.stdin.read()))), end="")
    elif not args.command:
        parser.error("a command to compare with is wanted")
    elif not compare(args.compare, args.seed, args.command):
        sys.exit(1)


if __name__ == "__main__":
    main()
