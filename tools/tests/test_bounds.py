"""Cases at each bound of docs/FORMATS.md and one beyond it, with their demand as rows and as a matrix: the second
reader and the program take the one, and refuse the other by the same line.

All files are made here, record by record, and the bounds are written down here once more, not taken from the tools.
Bounds of more rows than LTM_ROWS says are left out, since they take minutes and some gigabytes: with LTM_ROWS=8000000
all are tried.
"""
import os
import subprocess
import unittest
from collections.abc import Iterable, Iterator, Sequence
from itertools import chain

from support import BUILT, FolderTest
from support_refused import due, told
from ltm_tools.case.matrix import Slice, parts
from ltm_tools.formats import DEMAND, HEADERS, LINKS, MATRIX, PROFILE, SETUP, SIGNALS, SPLITS, short_vehicles

# as docs/FORMATS.md has them: without a column, asked for, and without history
MOST_LINKS, MOST_LINKS_ASKED, MOST_LINKS_NO_HISTORY = 4_000, 16_000, 40_000
MOST_DESTINATIONS, MOST_DESTINATIONS_ASKED, MOST_DESTINATIONS_NO_HISTORY = 64, 256, 2_000
MOST_DEMAND_ROWS, MOST_SPLIT_ROWS, MOST_ROWS_ASKED, MOST_ROWS_NO_HISTORY = 10_000, 50_000, 500_000, 8_000_000
MOST_ROUTED_ROWS = 160_000_000
MOST_CELLS, MOST_CELLS_ASKED = 54_000_000, 4_294_967_295
MOST_FILE_BYTES, MOST_LARGE_FILE_BYTES = 16_777_216, 268_435_456
MOST_SLOTS, MOST_SHARE, MOST_UNITS = 10_000, 1_000_000, 1_000_000_000

ROWS = int(os.environ.get("LTM_ROWS", MOST_ROWS_ASKED))  # the most rows of a bound that is tried
RUNS_PROGRAM = os.access(BUILT, os.X_OK)
Pair = tuple[str, str, int]  # origin, destination, thousandths of a vehicle


def roads(count: int, name: str = "n") -> Iterator[tuple[object, ...]]:
    """So many roads one behind the other, from n0 to n1 and so on, which let half a vehicle pass in a second."""
    return ((f"{name}{k}", f"{name}{k}", f"{name}{k + 1}", 20, 36, 18, 150) for k in range(count))


def ring(nodes: int) -> Iterator[tuple[object, ...]]:
    """The same round and round."""
    return ((f"r{k}", f"r{k}", f"r{(k + 1) % nodes}", 20, 36, 18, 150) for k in range(nodes))


def steps(pairs: Iterable[Pair]) -> Iterator[tuple[object, ...]]:
    """Split rows of pairs with a road from the one to the other."""
    return ((origin, end, 0, f"{origin}=1") for origin, end, _ in pairs)


def slots_of(slots: int, share: int = 1) -> list[Slice]:
    """A slice for each slot."""
    return [Slice(slot, slot + 1, share) for slot in range(slots)]


class BoundsTest(FolderTest):
    def put(self, file: str, header: Sequence[str], records: Iterable[Iterable[object]]) -> None:
        """Writes a file of the case, record by record."""
        with open(self.folder / f"{file}.csv", "w", encoding="utf-8") as opened:
            opened.writelines(",".join(map(str, record)) + "\n" for record in chain([header], records))

    def setup_of(self, slots: int, **columns: int) -> None:
        self.put("setup", (*SETUP, *columns), [(1000, slots, 1, *columns.values())])

    def demand_of(self, pairs: Iterable[Pair], slices: Sequence[Slice], matrix: bool) -> None:
        """Writes demand over slices as a matrix, or as the rows that it stands for."""
        if matrix:
            self.put("profile", PROFILE, ((part.from_slot, part.to_slot, part.share) for part in slices))
            self.put("demand", MATRIX, ((origin, end, short_vehicles(units)) for origin, end, units in pairs))
            return
        (self.folder / "profile.csv").unlink(missing_ok=True)
        self.put(
            "demand",
            DEMAND,
            (
                (origin, end, part.from_slot, part.to_slot, short_vehicles(of))
                for origin, end, units in pairs
                for part, of in zip(slices, parts(units, slices))
            ),
        )

    def holds(self, line: str | None, what: object, word: str = "load", status: int = 6) -> None:
        """The second reader and the program refuse the case by this line, or take it."""
        with self.subTest(what, word=word):
            said = due(self.folder, word)
            self.assertEqual(said if line or said[0] else (0, None), (status, line) if line else (0, None))
            if RUNS_PROGRAM:
                self.assertEqual(told(self.folder, word), said)


class Network(BoundsTest):
    def test_links(self) -> None:
        for most, columns in (
            (MOST_LINKS, {}),
            (MOST_LINKS_ASKED, {"links": MOST_LINKS_ASKED}),
            (MOST_LINKS_NO_HISTORY, {"links": MOST_LINKS_NO_HISTORY, "history": 0}),
        ):
            pairs = [("n0", "n1", 1000), (f"n{most - 1}", f"n{most}", 1000)]
            for matrix in (False, True):
                self.setup_of(4, **columns)
                self.demand_of(pairs, slots_of(4), matrix)
                self.put("splits", SPLITS, steps(pairs))
                for more, line in ((0, None), (1, f"bad case links row {most + 2} TooManyLinks")):
                    self.put("links", LINKS, roads(most + more))
                    self.holds(line, (most, more, matrix))

    def test_destinations(self) -> None:
        for most, columns in (
            (MOST_DESTINATIONS, {}),
            (MOST_DESTINATIONS_ASKED, {"destinations": MOST_DESTINATIONS_ASKED}),
            (MOST_DESTINATIONS_NO_HISTORY, {"destinations": MOST_DESTINATIONS_NO_HISTORY, "history": 0}),
        ):
            self.put("links", LINKS, roads(most + 1))
            self.setup_of(2, **columns)
            pairs = [(f"n{k}", f"n{k + 1}", 1) for k in range(most + 1)]
            for matrix in (False, True):
                for demand, splits, line in (
                    (most, most, None),
                    (most + 1, most, f"bad case demand row {most + 2} TooManyDestinations"),
                    (most, most + 1, f"bad case splits row {most + 2} TooManyDestinations"),
                ):
                    self.demand_of(pairs[:demand], [Slice(0, 2, 1)], matrix)
                    self.put("splits", SPLITS, steps(pairs[:splits]))
                    self.holds(line, (most, demand, splits, matrix))

    def test_cells(self) -> None:
        """Without asking, and of the most that may be asked for, where no loading is made."""
        for most, asked, word, slots, ends in (
            (MOST_CELLS, {}, "load", range(2_000, 3_000), 1),
            (MOST_CELLS_ASKED, {"cells": MOST_CELLS_ASKED}, "routes", range(1_000, 3_000), 64),
        ):
            for cells, line in ((most, None), (most + 1, f"bad case whole row 0 CellsOver {most + 1}")):
                count, apart, of = of_cells(cells, slots, ends)
                self.setup_of(of, **asked, links=count + apart)
                lone = ((f"x{k}", f"x{k}", f"y{k}", 20, 36, 18, 150) for k in range(apart))
                self.put("links", LINKS, chain(roads(count), lone))
                pairs = [(f"n{k}", f"n{k + 1}", 1) for k in range(ends)]
                self.put("splits", SPLITS, steps(pairs))
                for matrix in (False, True):
                    self.demand_of(pairs, [Slice(0, 1, 1)], matrix)
                    self.holds(line, (cells, matrix), word)

    def test_slots(self) -> None:
        self.put("links", LINKS, roads(1))
        for slots, line in ((MOST_SLOTS, None), (MOST_SLOTS + 1, "bad case setup row 2 Range 2")):
            for matrix in (False, True):
                self.setup_of(slots)
                self.demand_of([("n0", "n1", 1000)], [Slice(slots - 1, slots, 1)], matrix)
                self.put("splits", SPLITS, [("n0", "n1", 0, "n0=1"), ("n0", "n1", slots - 1, "n0=2")])
                self.holds(line, (slots, matrix))
        self.setup_of(MOST_SLOTS)
        self.put("splits", SPLITS, [("n0", "n1", 0, "n0=1")])
        for matrix, line in ((False, "bad case demand row 2 BadSlots"), (True, "bad case profile row 2 BadSlots")):
            self.demand_of([("n0", "n1", 1000)], [Slice(MOST_SLOTS, MOST_SLOTS + 1, 1)], matrix)
            self.holds(line, ("a slice behind the horizon", matrix))
        self.demand_of([("n0", "n1", 1000)], [Slice(0, 1, 1)], False)
        self.put("splits", SPLITS, [("n0", "n1", 0, "n0=1"), ("n0", "n1", MOST_SLOTS, "n0=1")])
        self.holds("bad case splits row 3 BadSlots", "splits behind the horizon")


def of_cells(cells: int, slots: Iterable[int], ends: int) -> tuple[int, int, int]:
    """How many roads in a row, roads apart and slots make so many cells with so many destinations, by docs/FORMATS.md.
    Of a row the first node has an origin and a link out, the last a link in, and each other an origin and both; of a
    road apart one node is as the first, and the other as the last."""
    first, last, middle = 4 * ends + 3, 2 * ends + 2, 6 * ends + 4
    for count in slots:
        of_row = count * middle + 6 * (count + 1) * ends + 2 * count
        of_road = count * (first + last) + 8 * (count + 1) * ends + 2 * count
        rest = cells - count * (first + last - middle) - 4 * (count + 1) * ends
        for apart in range(rest // of_road):
            links, over = divmod(rest - apart * of_road, of_row)
            if over == 0 and ends <= links <= MOST_LINKS_ASKED - apart:
                return links, apart, count
    raise AssertionError(f"no roads have {cells} cells")


class Rows(BoundsTest):
    """Each of so many roads has a row in each slot, and a road apart has none yet."""

    ASKED = (
        ({"rows": MOST_ROWS_ASKED}, MOST_ROWS_ASKED),
        ({"rows": MOST_ROWS_NO_HISTORY, "history": 0}, MOST_ROWS_NO_HISTORY),
    )

    def tried(self, least: int) -> Iterator[tuple[int, int, str]]:
        """The bounds of rows that are tried, the roads of each, and the node where all of them end. The case has the
        links that it needs and the setup, which asks for so many but for the least."""
        for columns, most in (({}, least), *self.ASKED):
            if most <= ROWS:
                count = most // MOST_SLOTS
                self.setup_of(MOST_SLOTS, **columns)
                self.put("links", LINKS, [*roads(count), *roads(1, "x")])
                yield most, count, f"n{count}"

    def holds_with(self, file: str, more: str, line: str | None, what: object) -> None:
        """The same with one more record in a file."""
        path = self.folder / f"{file}.csv"
        size = path.stat().st_size
        with path.open("a") as opened:
            opened.write(more + "\n")
        self.holds(line, (what, more))
        os.truncate(path, size)

    def test_of_demand(self) -> None:
        """A row with the ends and slots of another replaces it, and one of 0 vehicles is none."""
        for most, count, end in self.tried(MOST_DEMAND_ROWS):
            self.put("splits", SPLITS, [*((f"n{k}", end, 0, f"n{k}=1") for k in range(count)), ("x0", "x1", 0, "x0=1")])
            for matrix in (False, True):
                self.demand_of(((f"n{k}", end, MOST_SLOTS) for k in range(count)), slots_of(MOST_SLOTS), matrix)
                slots, row = ("", count + 2) if matrix else ("0,1,", most + 2)
                self.holds_with("demand", f"n0,{end},{slots}12\nx0,x1,{slots}0", None, (most, matrix))
                over = f"bad case demand row {row} TooManyRows"
                self.holds_with("demand", f"x0,x1,{slots}0.001", over, (most, matrix))

    def test_of_splits(self) -> None:
        for most, count, end in self.tried(MOST_SPLIT_ROWS):
            rows = ((f"n{k}", end, slot, f"n{k}=1") for k in range(count) for slot in range(MOST_SLOTS))
            self.put("splits", SPLITS, rows)
            over = f"bad case splits row {most + 2} TooManyRows"
            for matrix, more, line in (
                (False, f"n0,{end},0,n0=2", None),
                (True, "x0,x1,0,x0=1", over),
                (True, f"n0,{end},0,n0=2", None),
                (False, "x0,x1,0,x0=1", over),
            )[: 4 if most == MOST_SPLIT_ROWS else 2]:
                self.demand_of([("n0", end, 1000)], [Slice(0, 2, 1)], matrix)
                self.holds_with("splits", more, line, (most, matrix))

    def test_of_routes(self) -> None:
        """Of a ring, to 200 of its nodes from each of the 2,500 others; the road apart has one more, and a record of
        splits from slot 1 on too."""
        ends, nodes = 200, MOST_ROWS_ASKED // 200 + 1
        for rows, moves in ((3 * ends, 0), (MOST_ROWS_ASKED, 1)):  # the column bounds rows of demand alone
            self.setup_of(2, rows=rows, destinations=ends + 1, moves=moves, routes=1)
            self.put("links", LINKS, [*ring(nodes), *roads(1, "x")])
            pairs = [(f"r{k + 1}", f"r{k}", 1) for k in range(ends)]
            over = "bad case whole row 0 TooManyRows"
            for matrix in (False, True):
                for more, records, line in (
                    ([], [], None),
                    ([], [("r1", "r0", 0, "r1=2")], None),
                    ([], [("r1", "r0", 0, "r1=2"), ("r1", "r0", 1, "r1=2")], over),
                    ([("x0", "x1", 1)], [], over),
                    ([("x0", "x1", 0)], [], over),  # it is a destination without demand
                ):
                    self.demand_of([*pairs, *more], [Slice(0, 1, 1)], matrix)
                    self.put("splits", SPLITS, records)
                    self.holds(line, (rows, matrix, len(more), len(records)))

    def test_of_routes_without_history(self) -> None:
        """No case can have more than may be: at most one for each node and destination, and those of a whole file."""
        record = len("a,b,0,c=1\n")
        most = (MOST_LINKS_NO_HISTORY - 1) * MOST_DESTINATIONS_NO_HISTORY
        self.assertLess(most + MOST_LARGE_FILE_BYTES // record, MOST_ROUTED_ROWS)
        ends, nodes = (2_000, 40_000) if most <= 10 * ROWS else (200, 2_600)
        self.setup_of(1, links=nodes, destinations=ends, history=0, routes=1)
        self.put("links", LINKS, ring(nodes))
        self.put("splits", SPLITS, [])
        self.assertGreater((nodes - 1) * ends, MOST_ROWS_ASKED)
        for matrix in (False, True):
            self.demand_of([(f"r{k + 1}", f"r{k}", 1) for k in range(ends)], [Slice(0, 1, 1)], matrix)
            self.holds(None, (nodes, ends, matrix))


class Profiles(BoundsTest):
    def test_the_largest_sum_of_shares(self) -> None:
        """10,000 slices with the largest share, of the most vehicles of a record; and one slice with a share beyond."""
        self.setup_of(MOST_SLOTS)
        self.put("links", LINKS, roads(1))
        self.put("splits", SPLITS, [("n0", "n1", 0, "n0=1")])
        last = MOST_SLOTS + 1
        pairs, whole = [("n0", "n1", MOST_UNITS)], slots_of(MOST_SLOTS, MOST_SHARE)
        for share, line in (
            (MOST_SHARE, None),
            (MOST_SHARE - 1, None),
            (1, None),
            (MOST_SHARE + 1, f"bad case profile row {last} Range 3"),
            (0, f"bad case profile row {last} Range 3"),
        ):
            slices = [*whole[:-1], Slice(MOST_SLOTS - 1, MOST_SLOTS, share)]
            self.demand_of(pairs, slices, True)
            self.holds(line, share)
            if line is None and RUNS_PROGRAM:
                waits = self.delay()
                self.demand_of(pairs, slices, False)
                self.assertEqual(waits, self.delay(), f"rows give another loading, with share {share}")

    def delay(self) -> str:
        """How long vehicles wait, which tells each thousandth that sets out in another slot."""
        run = subprocess.run([BUILT, "delay"], cwd=self.folder, capture_output=True, text=True)
        self.assertEqual(run.returncode, 0)
        return run.stdout

    def test_the_most_vehicles_of_a_record(self) -> None:
        self.setup_of(2)
        self.put("links", LINKS, roads(1))
        self.put("splits", SPLITS, [("n0", "n1", 0, "n0=1")])
        for units, rows, matrix in ((MOST_UNITS, None, None), (MOST_UNITS + 1, "Field 5", "Field 3")):
            for is_matrix, cause in ((False, rows), (True, matrix)):
                self.demand_of([("n0", "n1", units)], [Slice(0, 2, 1)], is_matrix)
                self.holds(cause and f"bad case demand row 2 {cause}", (units, is_matrix))


class Files(BoundsTest):
    """Files of exactly the bytes that are read: what is added are lines that are no records."""

    def small(self, matrix: bool, **columns: int) -> None:
        self.setup_of(4, **columns)
        self.put("links", LINKS, roads(1))
        self.put("splits", SPLITS, [("n0", "n1", 0, "n0=1")])
        for file in ("signals", "limits"):
            self.put(file, SIGNALS, [("n0", 0, 1, 1)])
        self.demand_of([("n0", "n1", 1000)], [Slice(0, 4, 1)], matrix)

    def holds_at(self, file: str, most: int, what: object) -> None:
        """A file of so many bytes is read, and one of a byte more is not."""
        path = self.folder / f"{file}.csv"
        with path.open("ab") as opened:
            opened.write(b"\n" * (most - path.stat().st_size))
        self.holds(None, (file, most, what))
        os.truncate(path, most + 1)
        self.holds(f"too long {file}", (file, most + 1, what), status=7)

    def test_each(self) -> None:
        for file, matrix in (*((file, True) for file in HEADERS), ("demand", False)):
            self.small(matrix, signals=1, limits=1)
            self.holds_at(file, MOST_FILE_BYTES, matrix)

    def test_of_many_rows(self) -> None:
        """Demand and splits may be longer beside a setup that asks for more rows than a case with a history may."""
        for file, matrix in (("demand", False), ("demand", True), ("splits", True)):
            self.small(matrix, rows=MOST_ROWS_ASKED, history=0)
            os.truncate(self.folder / f"{file}.csv", MOST_FILE_BYTES + 1)
            self.holds(f"too long {file}", (file, matrix), status=7)
            self.small(matrix, rows=MOST_ROWS_ASKED + 1, history=0)
            if ROWS == MOST_ROWS_NO_HISTORY:
                self.holds_at(file, MOST_LARGE_FILE_BYTES, matrix)
            else:
                os.truncate(self.folder / f"{file}.csv", MOST_LARGE_FILE_BYTES + 1)
                self.holds(f"too long {file}", (file, matrix), status=7)
        for file in ("links", "profile", "signals", "limits"):
            self.small(True, signals=1, limits=1, rows=MOST_ROWS_ASKED + 1, history=0)
            os.truncate(self.folder / f"{file}.csv", MOST_FILE_BYTES + 1)
            self.holds(f"too long {file}", file, status=7)


class Columns(BoundsTest):
    def test_history_and_routes(self) -> None:
        """Values of both columns, their order, and what goes with them."""
        self.put("links", LINKS, roads(2))
        self.put("splits", SPLITS, [("n0", "n2", 0, "n0=1"), ("n1", "n2", 0, "n1=1")])
        for names, values, line in (
            ("history", "0", None),
            ("history", "1", None),
            ("history", "2", "row 2 Range 4"),
            ("routes", "0", None),
            ("routes", "1", None),
            ("routes", "2", "row 2 Range 4"),
            ("routes", "", "row 2 Field 4"),
            ("routes", "x", "row 2 Field 4"),
            ("routes", "-1", "row 2 Field 4"),
            ("routes", "001", None),
            ("routes", "4294967295", "row 2 Range 4"),
            ("routes", "4294967296", "row 2 Field 4"),
            ("history,routes", "0,1", None),
            ("history,routes", "1,1", None),
            ("history,routes", "0,0", None),
            ("history,routes", "2,2", "row 2 Range 4"),
            ("history,routes", "0,2", "row 2 Range 5"),
            ("history,routes", "2,x", "row 2 Field 5"),
            ("routes,history", "1,0", "row 1 Header"),
            ("routes,routes", "1,1", "row 1 Header"),
            ("routes,carry", "1,1", "row 1 Header"),
            ("history,moves", "0,0", "row 1 Header"),
            ("moves,history", "0,0", None),
            ("moves,history,routes", "0,0,1", None),
            ("moves,carry,history,routes", "0,0,0,1", None),
            ("moves,carry,history,routes", "1,1,0,1", None),
            ("moves,carry,history,routes", "0,2,0,2", "row 2 Range 5"),
            ("rows,history,routes", "500001,0,1", None),
            ("rows,history,routes", "500001,1,1", "row 2 Range 4"),
            ("rows,routes", "500001,1", "row 2 Range 4"),
            ("links,routes", "16001,1", "row 2 Range 4"),
            ("destinations,routes", "257,1", "row 2 Range 4"),
            ("route", "1", "row 1 Header"),
            ("Routes", "1", "row 1 Header"),
            ("routes", "1,1", "row 2 Width"),
            ("history,routes", "1", "row 2 Width"),
        ):
            self.put("setup", (*SETUP, names), [(1000, 4, 1, values)])
            for matrix in (False, True):
                self.demand_of([("n0", "n2", 1000)], [Slice(0, 4, 1)], matrix)
                for word in ("load", "routes"):
                    self.holds(line and f"bad case setup {line}", (names, values, matrix), word)


if __name__ == "__main__":
    unittest.main()
