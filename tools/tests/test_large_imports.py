"""What keeps imports of large tables small and quick is held against the plain way: vehicles by pair against a
dictionary, ways against a search from each end, least routes against one over the whole network, files against text."""
import random
import unittest
from fractions import Fraction

from support import FolderTest
from support_roads import network, road
from ltm_tools.case import Case, Demand, Link, Setup
from ltm_tools.case.leading import Leading
from ltm_tools.case.sizes import demand_bytes, route_bytes
from ltm_tools.case.valid import route_rows
from ltm_tools.demand.matrices import Amounts
from ltm_tools.demand.profiles import cut_by_shares
from ltm_tools.demand.volumes import MOST_PER, Volumes
from ltm_tools.errors import Fault
from ltm_tools.files import LINES_OF_A_BLOCK, write_lines
from ltm_tools.formats import record_text
from ltm_tools.network import exact
from ltm_tools.network.exact import exact_sum, whole_times
from ltm_tools.network.least_routes import least_routes
from ltm_tools.network.network import Network, least_route, least_times
from ltm_tools.network.od_nodes import by_node
from ltm_tools.network.reach import Reach
from ltm_tools.tntp.reading import BLOCK, lines_of, read_trips

HEAD = "<NUMBER OF ZONES> 9\n<TOTAL OD FLOW> 7\n<END OF METADATA>\n"


class Vehicles(unittest.TestCase):
    def check(self, rows: list[tuple[str, str, Fraction]]) -> Volumes:
        """The rows, added to volumes and to a dictionary, are the same in the same order."""
        made, plain = Volumes(), dict[tuple[str, str], Fraction]()
        for origin, end, volume in rows:
            made.add(origin, end, volume.numerator, volume.denominator)
            plain[origin, end] = plain.get((origin, end), Fraction(0)) + volume
        self.assertEqual(list(made.items()), list(plain.items()))
        self.assertEqual((list(made), list(made.values()), len(made)), (list(plain), list(plain.values()), len(plain)))
        self.assertEqual(made.whole(), sum(plain.values()))
        self.assertEqual(made.end_names(), list(dict.fromkeys(end for _, end in plain)))
        by_origin: dict[str, Fraction] = {}
        for (origin, _), volume in plain.items():
            by_origin[origin] = by_origin.get(origin, Fraction(0)) + volume
        self.assertEqual(list(made.by_origin().items()), list(by_origin.items()))
        whole, given, due = Fraction(0), list[int](), 0
        for volume in plain.values():
            whole += volume
            given.append((2000 * whole.numerator + whole.denominator) // (2 * whole.denominator) - due)
            due += given[-1]
        self.assertEqual(list(made.summed_units()), given)
        for factor in (Fraction(1), Fraction(2, 3)):
            self.assertEqual(
                list(made.scaled(factor).items()), [(pair, volume * factor) for pair, volume in plain.items()]
            )
        self.assertEqual(Volumes.of(plain), plain)
        return made

    def test_as_a_dictionary(self) -> None:
        """Pairs that come again, at once and behind other origins; decimals, thirds, and none."""
        drawn = random.Random(1)
        for denominators in ((1,), (1, 10, 1000), (1, 3, 7, 1000)):
            rows = [
                (
                    drawn.choice("abcd"),
                    drawn.choice("abcdef"),
                    Fraction(drawn.randrange(9999), drawn.choice(denominators)),
                )
                for _ in range(200)
            ]
            self.check(rows)
            self.check(sorted(rows, key=lambda row: row[0]))

    def test_amounts_that_are_too_large_for_whole_numbers_of_64_bits(self) -> None:
        large = Fraction(10**15)
        self.check([("a", "b", large), ("a", "c", Fraction(1, 10**9)), ("a", "b", large), ("c", "b", Fraction(5))])
        most, one = Fraction(2**63 - 1, 10**6), Fraction(1, 10**6)
        self.check([("a", "b", most), ("a", "b", one), ("a", "c", one)])

    def test_parts_that_are_too_small_to_be_counted_in(self) -> None:
        made = self.check(
            [("a", "b", Fraction(1, 3)), ("a", "c", Fraction(1, MOST_PER + 1)), ("b", "c", Fraction(1, 7))]
        )
        self.assertEqual(made.per, 0)

    def test_thousandths_of_a_row(self) -> None:
        made = Volumes.of({("a", "b"): Fraction(1, 2000), ("a", "c"): Fraction(49, 100_000)})
        self.assertEqual([units for *_, units in made.units("")], [1, 0])
        made.add("b", "c", 1_000_001)
        with self.assertRaisesRegex(Fault, "^from b to c: 1e.06 vehicles, and 0 to 1000000 are allowed$"):
            list(made.units("from {} to {}"))

    def test_pairs_are_looked_up(self) -> None:
        made = Volumes.of({("a", "b"): Fraction(1, 4), ("b", "a"): Fraction(2)})
        self.assertEqual(
            (made["b", "a"], made["a", "b"], made.get(("b", "b")), made.get(("x", "b"))), (2, 0.25, None, None)
        )


class Trips(FolderTest):
    def test_entries_of_all_kinds(self) -> None:
        """An origin that comes again, entries behind it and over lines, remarks, and numbers as they may be written."""
        path = self.folder / "trips.tntp"
        path.write_text(
            f"{HEAD}Origin 1 2 : 1.50; 3:.5;\n  4 : 1e2 ; ~ 9 : 9;\norigin\t2\n1 : 12.;2 : 4;;\n"
            "ORIGIN 1\n3 : +0.25; 5 : 0.0;\n6 : 123456789012.0001;\n"
        )
        amounts, total = read_trips(path)
        self.assertEqual((amounts.inner, total), (4, 7))
        self.assertEqual(
            list(amounts.volumes.items()),
            [
                (("1", "2"), Fraction(3, 2)),
                (("1", "3"), Fraction(3, 4)),
                (("1", "4"), 100),
                (("2", "1"), 12),
                (("1", "6"), Fraction("123456789012.0001")),
            ],
        )

    def test_lines_are_those_of_the_whole_text(self) -> None:
        drawn = random.Random(2)
        for ends in (("\n",), ("\r\n",), ("\r",), ("\n", "\r", "\r\n", "\u2028", "")):
            text = "".join("x" * drawn.randrange(BLOCK // 3) + drawn.choice(ends) for _ in range(40))
            self.assertEqual(list(lines_of(text)), text.splitlines())


def drawn_network(drawn: random.Random, nodes: int, roads: int) -> Network:
    """Roads between drawn nodes, of times that are whole tenths of a second."""
    made = [road(f"r{k}", f"n{drawn.randrange(nodes)}", f"n{drawn.randrange(nodes)}", 5) for k in range(roads)]
    for one in made:
        one.time = Fraction(drawn.randrange(1, 9), drawn.choice((1, 3, 10)))
    return network(*(one for one in made if one.tail != one.head))


def before(raw: Network, end: str) -> set[str]:
    """The nodes from which ways lead to one, it among them."""
    found, left = {end}, [end]
    while left:
        for name in raw.ins.get(left.pop(), ()):
            tail = raw.roads[name].tail
            if tail not in found:
                found.add(tail)
                left.append(tail)
    return found


class Ways(unittest.TestCase):
    def test_as_a_search_from_each_end(self) -> None:
        for seed in range(60):
            drawn = random.Random(seed)
            raw = drawn_network(drawn, 12, drawn.randrange(4, 30))
            reach = Reach(raw)
            weights = {node: drawn.randrange(9) for node in raw.nodes}
            for end in raw.nodes:
                found = before(raw, end)
                self.assertEqual({node for node in raw.nodes if reach.leads(node, end)}, found, seed)
                self.assertEqual(reach.sum_of(end, reach.by_part(weights)), sum(weights[node] for node in found), seed)

    def test_nodes_without_links(self) -> None:
        leading = Leading({"a": ["b"], "b": []})
        self.assertEqual(
            [leading.leads(*pair) for pair in ("ab", "ba", "xx", "xb", "ax")], [True, False, True] + 2 * [False]
        )
        self.assertEqual((leading.sum_of("x", [1, 1]), leading.sum_of("b", [1, 1])), (0, 2))

    def test_rows_and_bytes_of_routes(self) -> None:
        """Each other node from which links lead to a destination has a row of its least link."""
        for seed in range(20):
            drawn = random.Random(seed)
            raw = drawn_network(drawn, 9, drawn.randrange(4, 20))
            links = [
                Link("x" * drawn.randrange(1, 9) + one.name, one.tail, one.head, 1, 1, 1, 1)
                for one in raw.roads.values()
            ]
            ends = [drawn.choice(links).head for _ in range(4)]
            case = Case(Setup(1000, 9, 1), links, [Demand(links[0].tail, end, 0, 1, 1) for end in ends])
            rows = [
                f"{node},{end},0,{min((it.name for it in links if it.tail == node), key=len)}=1\n"
                for end in case.destinations
                for node in before(raw, end) - {end}
            ]
            self.assertEqual((route_rows(case), route_bytes(case)), (len(rows), sum(map(len, rows))), seed)

    def test_bytes_of_demand(self) -> None:
        rows = [Demand("a", "bc", 0, 10, 1250), Demand("bc", "a", 7, 100, 5000)]
        case = Case(Setup(1000, 100, 1), [Link("x", "a", "bc", 1, 1, 1, 1)], rows)
        text = "origin,destination,from_slot,to_slot,vehicles\na,bc,0,10,1.25\nbc,a,7,100,5\n"
        self.assertEqual(demand_bytes(case), len(text))

    def test_standing_demand_of_origins_that_come_again(self) -> None:
        """Of the same ends and slots the last row counts, where the first stood, however origins follow each other."""
        one, two, other = Demand("a", "b", 0, 9, 1), Demand("a", "b", 0, 9, 2), Demand("c", "b", 0, 9, 3)
        none = Demand("a", "d", 0, 9, 0)
        for rows, left in (([one, two, none, other], [two, other]), ([one, other, two], [two, other]), ([none], [])):
            self.assertEqual(Case(Setup(1000, 9, 1), [], rows).standing_demand(), left)


class LeastRoutes(unittest.TestCase):
    def test_as_a_search_over_the_whole_network(self) -> None:
        """In times that are multiplied, and in fractions where they are not."""
        for seed in range(40):
            drawn = random.Random(seed)
            raw = drawn_network(drawn, 15, 45)
            nodes = list(raw.nodes)
            pairs = [(drawn.choice(nodes), drawn.choice(nodes), drawn.randrange(5)) for _ in range(30)]
            pairs = [pair for pair in pairs if pair[0] != pair[1]]
            wanted = [
                (tuple(route), units)
                for origin, end, units in sorted(pairs, key=lambda pair: -pair[2])[:20]
                if (route := least_route(raw, origin, end, least_times(raw, end)))
            ]
            self.assertEqual(least_routes(raw, iter(pairs), 20), wanted, seed)
            most, exact.MOST_BITS = exact.MOST_BITS, 2
            try:
                self.assertEqual(least_routes(raw, pairs, 20), wanted, seed)
            finally:
                exact.MOST_BITS = most

    def test_sums_and_times(self) -> None:
        some = [Fraction(1, 3), Fraction(5), Fraction(7, 10)]
        self.assertEqual((exact_sum(some), exact_sum([])), (sum(some), 0))
        roads = {name: road(name, "a", "b", 5) for name in "xyz"}
        for one, time in zip(roads.values(), some):
            one.time = time
        self.assertEqual(whole_times(roads), {"x": 10, "y": 150, "z": 21})

    def test_shares_of_thirds(self) -> None:
        """11 thousandths by 1 to 1/3 to 2/3 are 5.5, 1.83 and 3.67: the last is cut off most but one, which gets 2."""
        self.assertEqual(cut_by_shares(11, [Fraction(1), Fraction(1, 3), Fraction(2, 3)]), [5, 2, 4])


class Demands(unittest.TestCase):
    def test_zones_of_several_nodes(self) -> None:
        """A half and a third of 1 vehicle begin at a, a sixth at b, where half of the trips end as well."""
        raw = network(road("x", "a", "b", 5), road("y", "b", "a", 5), road("z", "b", "c", 5))
        raw.origins = {"1": {"a": Fraction(5, 6), "b": Fraction(1, 6)}}
        raw.destinations = {"2": {"b": Fraction(1, 2), "c": Fraction(1, 2)}}
        amounts = Amounts(Volumes.of({("1", "2"): Fraction(1)}), Fraction(0), ())
        self.assertEqual(
            dict(by_node(raw, amounts, False, [])),
            {("a", "b"): Fraction(5, 12), ("a", "c"): Fraction(5, 12), ("b", "c"): Fraction(1, 12)},
        )
        self.assertEqual(amounts.inner, Fraction(1, 12))


class Files(FolderTest):
    def test_lines_are_written_block_by_block(self) -> None:
        for count in (0, 1, LINES_OF_A_BLOCK - 1, LINES_OF_A_BLOCK, 3 * LINES_OF_A_BLOCK):
            write_lines(self.folder / "x.csv", ("a", "b"), (f"{line},ü" for line in range(count)))
            text = "a,b\n" + "".join(f"{line},ü\n" for line in range(count))
            self.assertEqual((self.folder / "x.csv").read_bytes(), text.encode())

    def test_where_lines_fail_the_old_file_stays(self) -> None:
        def lines(good: int) -> object:
            yield from map(str, range(good))
            raise Fault("no more")

        write_lines(self.folder / "x.csv", ("a",), ["1"])
        with self.assertRaisesRegex(Fault, "no more"):
            write_lines(self.folder / "x.csv", ("a",), lines(2 * LINES_OF_A_BLOCK))  # type: ignore[arg-type]
        self.assertEqual({path.name: path.read_text() for path in self.folder.iterdir()}, {"x.csv": "a\n1\n"})

    def test_records_with_quotes(self) -> None:
        texts = [record_text(fields) for fields in ([], [""], ["", ""], ["a", 'b"c', "d,e"])]
        self.assertEqual(texts, ["", '""', ",", 'a,"b""c","d,e"'])


if __name__ == "__main__":
    unittest.main()
