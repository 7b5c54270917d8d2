#!/usr/bin/env python3
"""What pass and write_book should do, worked out from the definitions.

usage: tools/check_books.py --compare COUNT [--seed SEED] PASS WRITE_BOOK

Makes COUNT random cases, after those in EXAMPLES, each a sheet of at most 8 positions
and a book file. It runs both programs on each in a temporary folder and compares what
they print and the book.bin that is then there; standard error is left aside. It prints
the cases that differ and how many of each outcome were compared; the status is 1 where
any differs. The cases' seeds are SEED, SEED + 1 and so on: --compare 1 makes one again.
"""

import argparse
import collections
import itertools
import pathlib
import random
import subprocess
import sys
import tempfile
import typing

sys.dont_write_bytecode = True  # so that the next line leaves no folder here
import check_settle

MOST_BYTES = 65_536
MOST_ROWS = 65_535

# Books for site F's sheet, and what pass should print of each.
SITE_F = check_settle.EXAMPLES[0][0]
EXAMPLES = [
    ("04 05 04 02010000 04010404 04010500 04000501", "accepted\n"),
    ("04 05 03 02010000 04010404 04010500", "silent 4 2\n"),
    ("04 05 05 02010000 04010404 04010500 04000501 04000404", "torn 4 1\n"),
    ("04 05 04 02010000 04010404 04010500 04010501", "broken 0 2\n"),
]

# Texts that are no sheet, and what both programs should print of each.
FAULTY_TEXTS = {"": "refused 3 0\n", "p cnf 1 1\ne 1 0\n": "refused 7 16\n"}


class Refused(Exception):
    def __str__(self):
        number, place = self.args
        return f"refused {number} {place}\n"


class Row(typing.NamedTuple):
    position: int
    side: int
    looked_at: int
    wanted_on: int


class Prefix(typing.NamedTuple):
    """How many positions there are, counted from 1 here, and the mask of the reports."""

    length: int
    reports: int

    def has_reply(self, position):
        return 1 <= position <= self.length and not self.reports >> position - 1 & 1

    def reports_before(self, position):
        return self.reports & (1 << position - 1) - 1


def prefix_of(sheet):
    return Prefix(sheet.length, sum(report << k for k, report in enumerate(sheet.reports)))


def spelled(number, least=1):
    """The groups of seven bits of a number; more than it needs where that is the least."""
    groups = [number % 128]
    while number >= 128 or len(groups) < least:
        number //= 128
        groups.append(number % 128)
    return bytes(group + 128 for group in groups[:-1]) + bytes(groups[-1:])


def number_at(data, place):
    """The number that stands at a place, and the place after it."""
    number = 0
    for index, byte in enumerate(data[place : place + 4]):
        number += byte % 128 << 7 * index
        if byte == 0 and index > 0:
            break
        if byte < 128:
            return number, place + index + 1
    raise Refused(9, place)


def read_book(data):
    """The prefix and the rows that a book file says."""
    place = 0

    def field(allowed):
        nonlocal place
        number, after = number_at(data, place)
        if not allowed(number):
            raise Refused(10, place)
        place = after
        return number

    length = field(lambda number: 1 <= number <= 24)
    reports = field(lambda number: number < 1 << length and number.bit_count() <= 12)
    prefix = Prefix(length, reports)
    rows = []
    for _ in range(field(lambda number: number <= MOST_ROWS)):
        position = field(prefix.has_reply)
        side = field(lambda number: number <= 1)
        before = prefix.reports_before(position)
        looked_at = field(lambda number: number | before == before)
        wanted_on = field(lambda number: number | looked_at == looked_at)
        rows.append(Row(position, side, looked_at, wanted_on))
    if place < len(data):
        raise Refused(11, place)
    return prefix, rows


def numbers_of(prefix, rows):
    return [*prefix, len(rows), *itertools.chain(*rows)]


def written(prefix, rows):
    """The file of a book."""
    return b"".join(map(spelled, numbers_of(prefix, rows)))


def listing(sheet, policy):
    """A policy as rows, one for each point, in listing order."""
    rows = []
    for k, setting in sheet.points():
        before = [1 << report for report in range(k) if sheet.reports[report]]
        wanted_on = sum(itertools.compress(before, setting))
        rows.append(Row(k + 1, int(policy[k, setting]), sum(before), wanted_on))
    return rows


def fault_on(sheet, rows, setting):
    """What is wrong with a book of rows on one setting, None where nothing is."""
    line, reported, values = [], 0, iter(setting)
    for k, report in enumerate(sheet.reports):
        if report:
            line.append(next(values))
            reported += line[k] << k
            continue
        agreeing = [row for row in rows if reported & row.looked_at == row.wanted_on]
        sides = {row.side for row in agreeing if row.position == k + 1}
        if len(sides) != 1:
            return f"{'torn' if sides else 'silent'} {k + 1}"
        line.append(1 in sides)
    return None if sheet.kept(line) else "broken 0"


def verdict(sheet, rows):
    """The verdict's line: the first fault, settings being taken in rising number."""
    settings = itertools.product((False, True), repeat=sum(sheet.reports))
    for number, setting in enumerate(settings):
        if fault := fault_on(sheet, rows, setting):
            return f"{fault} {number}\n"
    return "accepted\n"


def after_pass(sheet, book):
    """What pass should print, and the book file afterwards, None being no file."""
    counts_as_empty = book is None or len(book) > MOST_BYTES
    try:
        prefix, rows = read_book(b"" if counts_as_empty else book)
    except Refused as refusal:
        return str(refusal), book
    if prefix != prefix_of(sheet):
        return str(Refused(13, 0)), book
    return verdict(sheet, rows), book


def after_write_book(sheet, book):
    """The same for write_book; the book that it should write has to be accepted."""
    _, policy = check_settle.solve(sheet)
    if policy is None:
        return str(Refused(16, 0)), book
    rows = listing(sheet, policy)
    data = written(prefix_of(sheet), rows)
    assert after_pass(sheet, data) == ("accepted\n", data)
    return f"written {len(rows)} {len(data)}\n", data


def wanted(program, text, book):
    """The same for either program, on a text that may be faulty."""
    if text in FAULTY_TEXTS:
        return FAULTY_TEXTS[text], book
    after = {"pass": after_pass, "write_book": after_write_book}[program]
    return after(check_settle.Sheet(text), book)


def merged(rng, rows):
    """The same guards in fewer rows, in any order: some pairs of rows that differ only in
    what they want of one report become one that does not look at it."""
    rows = list(rows)
    for bit in (1 << k for k in range(8)):
        for row in [row for row in rows if row.looked_at & ~row.wanted_on & bit]:
            twin = row._replace(wanted_on=row.wanted_on | bit)
            if twin in rows and rng.random() < 0.7:
                rows.remove(twin)
                rows[rows.index(row)] = row._replace(looked_at=row.looked_at & ~bit)
    return rng.sample(rows, len(rows))


def good_rows(rng, sheet):
    """Rows that mean the searched policy, or any policy where none wins."""
    _, policy = check_settle.solve(sheet)
    if policy is None:
        policy = {point: rng.random() < 0.5 for point in sheet.points()}
    rows = listing(sheet, policy)
    return rows if rng.random() < 0.3 else merged(rng, rows)


def random_rows(rng, prefix, count):
    """Rows that a file may have, none where there is no reply."""
    replies = list(filter(prefix.has_reply, range(1, prefix.length + 1)))
    rows = []
    for position in rng.choices(replies, k=count) if replies else []:
        looked_at = prefix.reports_before(position) & rng.getrandbits(24)
        rows.append(Row(position, rng.randrange(2), looked_at, looked_at & rng.getrandbits(24)))
    return rows


def other_prefix(rng, prefix):
    """One report more or less, or any prefix, sometimes with a 25th position or 13th report."""
    if rng.random() < 0.3:
        return prefix._replace(reports=prefix.reports ^ 1 << rng.randrange(prefix.length))
    length = rng.randint(1, 25)
    reports = rng.sample(range(length), rng.randint(0, min(length, 13)))
    return Prefix(length, sum(1 << report for report in reports))


def wrong_number(rng, number):
    """Bytes in a number's stead: too many groups, or another number."""
    others = [number + 1, max(number - 1, 0), number ^ 1 << rng.randrange(28)]
    others += [rng.getrandbits(28), rng.getrandbits(35), MOST_ROWS, MOST_ROWS + 1]
    return rng.choice((spelled(number, rng.randint(2, 5)), spelled(rng.choice(others))))


def random_book(rng, sheet):
    """A book file, good or not, or None for no file."""
    prefix, rows = prefix_of(sheet), good_rows(rng, sheet)
    good = written(prefix, rows)
    row, byte = rng.randrange(len(rows) + 1), rng.randrange(len(good))
    match rng.randrange(14):
        case 0:  # truncated
            return good[:byte]
        case 1:  # padded
            end = rng.choice((len(good) + 1, len(good) + 4, MOST_BYTES, MOST_BYTES + 1))
            return good + rng.randbytes(end - len(good))
        case 2:  # damaged in one byte, or others in its stead
            return good[:byte] + rng.randbytes(rng.randint(1, 3)) + good[byte + 1 :]
        case 3 | 4:  # damaged in one number
            numbers = numbers_of(prefix, rows)
            parts = list(map(spelled, numbers))
            damaged = rng.randrange(len(parts))
            parts[damaged] = wrong_number(rng, numbers[damaged])
            return b"".join(parts)
        case 5 | 6:  # of another prefix
            prefix = other_prefix(rng, prefix)
            return written(prefix, random_rows(rng, prefix, rng.randrange(5)))
        case 7:  # of any rows
            return written(prefix, random_rows(rng, prefix, rng.randrange(12)))
        case 8 | 9:  # changed: a row more or less, or another in its stead
            more, less = rng.choice(((0, 1), (1, 0), (1, 1)))
            rows[row : row + less] = random_rows(rng, prefix, more)
            return written(prefix, rows)
        case 10:
            return rng.choice((None, good))
        case _:
            return good


def random_case(seed):
    """A sheet's text and a book file; a few of the texts are faulty."""
    rng = random.Random(seed)
    text = check_settle.random_text(rng)
    book = random_book(rng, check_settle.Sheet(text))
    return (rng.choice(list(FAULTY_TEXTS)) if rng.random() < 0.02 else text), book


def run(command, text, book):
    """What the program prints, and the book file afterwards."""
    with tempfile.TemporaryDirectory() as folder:
        sheet_file, book_file = pathlib.Path(folder, "sheet.txt"), pathlib.Path(folder, "book.bin")
        sheet_file.write_text(text)
        if book is not None:
            book_file.write_bytes(book)
        pipes = {"stdout": subprocess.PIPE, "stderr": subprocess.DEVNULL}
        ended = subprocess.run([command], input=text.encode(), cwd=folder, **pipes)
        printed = ended.stdout.decode(errors="replace")
        if ended.returncode != 0:
            printed += f"status {ended.returncode}\n"
        return printed, book_file.read_bytes() if book_file.exists() else None


def shown(text, book):
    """A text, and the book file in hexadecimal."""
    return text + ("no book.bin" if book is None else f"book.bin {book.hex(' ')}") + "\n"


def outcome(printed):
    """The first word of what is printed, and a refusal's number."""
    words = printed.split()
    return " ".join(words[: 1 + (words[0] == "refused")])


def compare(count, seed, commands):
    cases = [(f"book {book}", SITE_F, bytes.fromhex(book)) for book, _ in EXAMPLES]
    for (_, text, book), (_, expected) in zip(cases, EXAMPLES):
        assert wanted("pass", text, book) == (expected, book), expected
    assert wanted("write_book", SITE_F, None)[0] == "written 6 27\n"
    cases += [(f"seed {k}", *random_case(k)) for k in range(seed, seed + count)]
    print(f"{len(cases)} cases")
    total = 0
    for program, command in commands.items():
        outcomes, differ = collections.Counter(), 0
        for name, text, book in cases:
            expected, got = wanted(program, text, book), run(command, text, book)
            outcomes[outcome(expected[0])] += 1
            if got != expected:
                differ += 1
                print(f"On {name},\n{shown(text, book)}{program} gives")
                print(f"{shown(*got)}instead of\n{shown(*expected)}")
        counts = ", ".join(f"{number} {name}" for name, number in sorted(outcomes.items()))
        print(f"{program}: {counts}; {differ} differ")
        total += differ
    return total == 0


def main():
    parser = argparse.ArgumentParser(description=__doc__.partition("\n")[0])
    parser.add_argument("--compare", type=int, metavar="COUNT", required=True)
    parser.add_argument("--seed", type=int, default=1)
    parser.add_argument("pass_program", type=pathlib.Path, metavar="PASS")
    parser.add_argument("write_book_program", type=pathlib.Path, metavar="WRITE_BOOK")
    args = parser.parse_args()
    commands = {"pass": args.pass_program, "write_book": args.write_book_program}
    commands = {program: path.resolve() for program, path in commands.items()}
    if not compare(args.compare, args.seed, commands):
        sys.exit(1)


if __name__ == "__main__":
    main()
