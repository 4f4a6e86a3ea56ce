"""Calibration: sums in a fixed order and slopes, on numbers worked by hand and against exact loadings; and the demand
that is found of a corridor whose truth is known."""
import os
import re
import shutil
import signal
import subprocess
import sys
import tempfile
import unittest
from dataclasses import replace
from fractions import Fraction
from hashlib import sha256
from pathlib import Path
from random import Random
from unittest import mock

import commands
from support import BUILT, EXAMPLES, FolderTest, TOOLS, digest, lack_of, needs_dask, needs_program
from support_cluster import ClusterTest
from support_loadings import read
from ltm_tools.case import Case, Demand
from ltm_tools.errors import Fault
from ltm_tools.loading.flows import Span

if lack_of("python3-numpy"):
    raise unittest.SkipTest(lack_of("python3-numpy"))

import numpy
from numpy.core._multiarray_umath import __cpu_dispatch__ as dispatched, __cpu_features__ as features

from ltm_tools.assign.engine import Counts
from ltm_tools.assign.net import Net, Real
from ltm_tools.calibrate.linear import (
    Factor,
    directions,
    dot,
    eigenvectors,
    gram,
    normal,
    product,
    summed_rows,
    uniform,
)
from ltm_tools.calibrate.loader import Hours, Loaded, Loader
from ltm_tools.calibrate.search import Trial
from ltm_tools.calibrate.shares import Moments, SplitParts, counted_shares, weights
from ltm_tools.calibrate.spread import fitting
from ltm_tools.calibrate.unknowns import Effects, Errors, Prior, parted
from ltm_tools.counting.counts import Count, Point
from ltm_tools.counting.loaded import all_counted
from ltm_tools.loading.delay import produced

COUNTS = EXAMPLES / "counts"


def old_processor() -> dict[str, str]:
    """The variables with which numpy and its library of linear algebra have but the oldest processor's instructions."""
    newer = [name for name in dispatched if features[name]]
    more = {"OPENBLAS_CORETYPE": "Prescott", "NPY_DISABLE_CPU_FEATURES": " ".join(newer)}
    return {**os.environ, **more, "PYTHONPATH": os.pathsep.join([str(TOOLS), str(TOOLS / "tests")])}


def bits() -> str:
    """The last bits of all that is summed, of matrices that are large enough for another order."""
    random = Random(3)
    matrix, vector = uniform(random, 60 * 90).reshape(60, 90), uniform(random, 90)
    inner = gram(matrix) + numpy.eye(60)
    told = [numpy.array([dot(vector, vector)]), summed_rows(matrix), product(matrix, vector), inner]
    told += [Factor(inner).solve(matrix), *eigenvectors(inner[:9, :9]), *directions(3 * matrix, 8), normal(random, 50)]
    return sha256(b"".join(numpy.ascontiguousarray(one).tobytes() for one in told)).hexdigest()


class Linear(unittest.TestCase):
    def test_the_same_bits_on_other_processors(self) -> None:
        words = [sys.executable, "-c", "import test_calibrate; print(test_calibrate.bits())"]
        other = subprocess.run(words, env=old_processor(), capture_output=True, text=True, check=True).stdout
        self.assertEqual(other.strip(), bits())

    def test_products(self) -> None:
        matrix = numpy.array([[1.0, 2.0], [3.0, 4.0]])
        self.assertEqual(product(matrix, numpy.array([5.0, 6.0])).tolist(), [17, 39])
        self.assertEqual(product(matrix, matrix).tolist(), [[7, 10], [15, 22]])
        self.assertEqual(gram(matrix).tolist(), [[5, 11], [11, 25]])
        self.assertEqual(
            gram(numpy.array([[0.0, 2.0], [0.0, 0.0], [1.0, 0.0]])).tolist(), [[4, 0, 0], [0, 0, 0], [0, 0, 1]]
        )

    def test_solving(self) -> None:
        # 4 x + 2 y = 10 and 2 x + 5 y = 9
        factor = Factor(numpy.array([[4.0, 2.0], [2.0, 5.0]]))
        numpy.testing.assert_allclose(factor.solve(numpy.array([10.0, 9.0])), [2, 1])
        numpy.testing.assert_allclose(
            factor.solve(numpy.array([[10.0, 4.0], [9.0, 2.0]])), [[2, 1], [1, 0]], atol=1e-15
        )

    def test_more_rows_than_a_block(self) -> None:
        random = Random(4)
        matrix = uniform(random, 110 * 130).reshape(110, 130)
        matrix[:, 40:60][uniform(random, 2200).reshape(110, 20) < 0.3] = 0  # columns with few entries among the others
        inner = gram(matrix) + numpy.eye(110)
        numpy.testing.assert_allclose(inner, matrix @ matrix.T + numpy.eye(110), rtol=1e-12, atol=1e-12)
        right = matrix.copy()
        numpy.testing.assert_allclose(inner @ Factor(inner).solve(right), matrix, atol=1e-12)
        self.assertEqual(right.tobytes(), matrix.tobytes())  # what is given stays

    def test_directions(self) -> None:
        values, vectors = eigenvectors(numpy.array([[2.0, 1.0], [1.0, 2.0]]))
        numpy.testing.assert_allclose(values, [3, 1])
        numpy.testing.assert_allclose(numpy.abs(vectors), numpy.full((2, 2), 0.5**0.5))
        # of singular values 3, 0.5 and 2 those above 1, the greatest first
        found = directions(numpy.array([[0.0, -3, 0], [0, 0, 0.5], [2, 0, 0]]), 8)
        numpy.testing.assert_allclose(found, [[0, 1, 0], [1, 0, 0]], atol=1e-12)
        self.assertEqual(len(directions(numpy.array([[0.0, -3, 0], [2, 0, 0]]), 1)), 1)

    def test_normal(self) -> None:
        drawn = normal(Random(1), 2000)
        self.assertLess(abs(float(drawn.mean())), 0.1)
        self.assertLess(abs(float(drawn.std()) - 1), 0.05)


class Unknowns(unittest.TestCase):
    def test_parts_of_a_row(self) -> None:
        # 20 vehicles over slots 5 to 25: 5 up to slot 10, 10 up to 20
        parts = parted(Demand("a", "b", 5, 25, 20), 10)
        self.assertEqual(
            [(row.from_slot, row.to_slot, row.units) for row in parts], [(5, 10, 5), (10, 20, 10), (20, 25, 5)]
        )
        self.assertEqual(parted(Demand("a", "b", 5, 15, 20), 10), [Demand("a", "b", 5, 15, 20)])

    def prior(self) -> Prior:
        case, _ = read("road")
        case.demand = [Demand("n1", "n2", 0, 2, 4000), Demand("n1", "n2", 2, 3, 6000), Demand("n1", "n2", 4, 6, 20_000)]
        return Prior(case, 4)

    def test_rows_keep_their_shares(self) -> None:
        prior = self.prior()
        self.assertEqual([(one.slice, one.units) for one in prior.unknowns], [(0, 10_000), (1, 20_000)])
        self.assertEqual(prior.of_rows(numpy.array([5.0, 0.0])).tolist(), [2000, 3000, 0])
        self.assertEqual(
            prior.demand(numpy.array([1, 0, 5])), [Demand("n1", "n2", 0, 2, 1), Demand("n1", "n2", 4, 6, 5)]
        )

    def test_a_table_of_errors(self) -> None:
        with tempfile.TemporaryDirectory() as folder:
            path = Path(folder) / "errors.csv"
            for text, wanted in (("total,0\npair,10\n", True), ("total,10.5\n", False), ("total,-1\n", False)):
                path.write_text(f"effect,error\n{text}")
                if wanted:
                    self.assertEqual((Errors.read(str(path)).total, Errors.read(str(path)).pair), (0, 10))
                else:
                    self.assertRaisesRegex(Fault, "from 0 to 10", Errors.read, str(path))

    def test_effects(self) -> None:
        # 10 and 20 vehicles; an effect of all, of a tenth, and one of each, of a fifth
        effects = Effects(self.prior(), Errors(total=0.1, slice=0, origin=0, destination=0, pair=0, own=0.2))
        numpy.testing.assert_allclose(effects.amounts(numpy.array([1.0, 1.0, -1.0])), [13, 18])
        numpy.testing.assert_allclose(effects.amounts(numpy.array([0.0, -9.0, 0.0])), [0, 20])
        numpy.testing.assert_allclose(effects.slopes(numpy.array([[1, 0], [0.5, 1]])), [[1, 2, 0], [2.5, 1, 4]])
        numpy.testing.assert_allclose(effects.variance, [5, 20])


def ends_and_middle(length_m: int) -> list[tuple[Fraction | None, bool]]:
    """Where on a link is counted: as the last two fields of a point."""
    return [(None, False), (None, True), (Fraction(length_m, 2), False)]


class Shares(unittest.TestCase):
    def test_weights_of_boundaries(self) -> None:
        case, _ = read("road")
        net = Net(case)
        step = net.step
        count = Count("x", (Point("a"),), Span(step, 5 * step // 2), Fraction(1), None, "fit", "")
        self.assertEqual(weights(net, count)[:5].tolist(), [0, 0.5, 1, 0, 0])

    def test_they_tell_the_counts_of_exact_loadings(self) -> None:
        """Of loadings of an engine that was written without this one, of some vehicles in some seconds: what passes
        both ends and the middle of each link by eight slots."""
        for name in ("base", "base_signals", "corridor", "star"):
            case, curves = read(name)
            net, step = Net(case), case.setup.step_ms
            spans = [Span(k * step, min(k + 8, net.slots) * step) for k in range(0, net.slots, 8)]
            points = [Point(link.name, *more) for link in net.links for more in ends_and_middle(link.length_m)]
            counts = [Count("x", (point,), span, Fraction(1), None, "fit", "") for point in points for span in spans]
            found = Counts(net)
            for place, link in enumerate(net.names):
                found.entered[:, place], found.left[:, place] = curves.up(link), curves.down(link)
            for node, rows in net.origins.items():
                made = numpy.asarray(produced(rows, net.slots + 1))
                found.origins[node] = made, numpy.asarray(curves.departed(net.node_names[node]))
            prior = Prior(case, 4)
            matrix = counted_shares(net, SplitParts(net), Moments(net, found), prior.unknowns, counts)
            told, exact = product(matrix, prior.units / 1000), numpy.array(all_counted(counts, curves, case)) / 1000
            self.assertLess(float(numpy.sqrt(((told - exact) ** 2).mean()) / exact.mean()), 0.085, name)
            self.assertLess(abs(told.sum() / exact.sum() - 1), 0.04, name)


class OneSided:
    """A search whose counts see what is below 0 alone: the square of it."""

    def all_at(self, many: list[Real]) -> list[Trial]:
        nothing = Loaded((), (), Hours(0, 0, 0, 0))
        return [Trial(effects, nothing, numpy.minimum(effects, 0), 0.0) for effects in many]


class Range(unittest.TestCase):
    def test_what_does_not_fit_goes_part_of_the_way(self) -> None:
        search = OneSided()
        (begin,) = search.all_at([numpy.zeros(1)])
        aways = [numpy.array([float(away)]) for away in (4, -4, -8)]
        found = fitting(search, begin, aways, 1.0)  # type: ignore[arg-type]
        self.assertEqual([float(one.effects[0]) for one in found], [4, -1])  # -2 is the nearest that the third comes to


@needs_program
class Corridor(FolderTest):
    """The corridor with 70 % of its demand; the truth is 2,000 vehicles, 110.7 hours in queues."""

    def calibrated(
        self, *words: str, prior: Path = COUNTS, counts: Path = COUNTS / "counts.csv"
    ) -> tuple[int, str, str]:
        return commands.run(
            "calibrate",
            str(prior),
            "--counts",
            str(counts),
            "-o",
            str(self.folder / "made"),
            "--program",
            str(BUILT),
            *words,
        )

    def rows(self, name: str) -> list[list[str]]:
        return [line.split(",") for line in (self.folder / "made" / name).read_text().splitlines()[1:]]

    def test_the_truth_is_found(self) -> None:
        status, told, _ = self.calibrated("--samples", "4", "--processes", "4")
        self.assertEqual(status, 0)
        case = Case.read(self.folder / "made")
        self.assertLess(abs(sum(row.units for row in case.demand) - 2_000_000), 20_000)
        queued = float(self.rows("iterations.csv")[-1][4]) / 3600
        self.assertLess(abs(queued - 110.69), 10)
        self.assertIn("of 4 unknowns 4 are known to nine tenths", told)
        self.assertNotIn("more --iterations", told)
        self.assertEqual(told.splitlines()[0], "4 unknowns, 11 counts to fit, 11 held out, 0 times")
        self.assertEqual([len(row[6].partition(".")[2]) for row in self.rows("demand_fit.csv")], [3] * 4)
        # the fit is that of the case that is written, loaded anew
        fit = self.folder / "fit.csv"
        commands.run(
            "validate",
            str(self.folder / "made"),
            "--counts",
            str(COUNTS / "counts.csv"),
            "-o",
            str(fit),
            "--program",
            str(BUILT),
        )
        self.assertEqual(fit.read_bytes(), (self.folder / "made/fit.csv").read_bytes())
        self.loaded_by_others(fit.read_bytes())
        before = digest(self.folder / "made")
        self.assertEqual(self.calibrated("--samples", "4")[0], 0)
        self.assertEqual(digest(self.folder / "made"), before)

    def test_the_same_bytes_on_other_processors(self) -> None:
        """And with four sessions at once."""
        self.assertEqual(self.calibrated("--samples", "2")[0], 0)
        before = digest(self.folder / "made")
        shutil.rmtree(self.folder / "made")
        words = ["calibrate", COUNTS, "--counts", COUNTS / "counts.csv", "-o", self.folder / "made", "--samples", "2"]
        command = [sys.executable, TOOLS / "ltm-tools", *words, "--processes", "4", "--program", BUILT]
        subprocess.run(command, env=old_processor(), check=True, stdout=subprocess.DEVNULL)
        self.assertEqual(digest(self.folder / "made"), before)

    def test_a_place_where_nothing_can_be_written(self) -> None:
        """It is refused before anything is loaded; and where a loading fails no folder is left."""
        (self.folder / "made").write_text("")
        with mock.patch.object(Loader, "__init__", side_effect=AssertionError):
            status, _, told = self.calibrated()
        self.assertEqual((status, told.count("\n")), (1, 1))
        (self.folder / "made").unlink()
        with mock.patch.object(Loader, "__init__", side_effect=Fault("it fails")):
            self.assertEqual(self.calibrated()[2], "ltm-tools calibrate: it fails\n")
        self.assertFalse((self.folder / "made").exists())

    def loaded_by_others(self, fit: bytes) -> None:
        """The counts of `fit` are those of a curve file, read by the tools, that `ltm check` holds for the loading of
        the case: it makes no loading, but looks at each node step of the file."""
        other, again = self.folder / "other", self.folder / "again.csv"
        shutil.copytree(self.folder / "made", other)
        curves = subprocess.run([BUILT, "curves"], cwd=other, capture_output=True, check=True).stdout
        (other / "curves.csv").write_bytes(curves)
        checked = subprocess.run([BUILT, "check"], cwd=other, capture_output=True, check=True).stdout
        self.assertEqual(checked, b"loading yes\n")
        words = ["--counts", str(COUNTS / "counts.csv"), "--curves", str(other / "curves.csv"), "-o", str(again)]
        self.assertEqual(commands.run("validate", str(other), *words)[0], 0)
        self.assertEqual(again.read_bytes(), fit)

    def test_a_prior_that_is_the_truth_stays(self) -> None:
        prior = self.folder / "prior"
        prior.mkdir()
        for path in COUNTS.iterdir():
            (prior / path.name).write_bytes(path.read_bytes())
        (prior / "demand.csv").write_bytes((EXAMPLES / "corridor/demand.csv").read_bytes())
        counts = self.folder / "exact.csv"
        commands.run("flows", str(prior), "--every", "5", "--links", "r3", "-o", str(counts), "--program", str(BUILT))
        counts.write_text(counts.read_text().replace("entered", "vehicles"))
        self.assertEqual(self.calibrated("--samples", "0", prior=prior, counts=counts)[0], 0)
        self.assertEqual((self.folder / "made/demand.csv").read_bytes(), (prior / "demand.csv").read_bytes())
        # a line for the prior, after one loading
        self.assertEqual([row[:2] for row in self.rows("iterations.csv")], [["0", "1"]])

    def test_the_range_has_the_truth_where_counts_are_ambiguous(self) -> None:
        """Twenty minutes behind the works, where 208 vehicles pass in five at any demand from 0.7 of the truth to 1.2
        of it: no demand is found that is any better than the prior, but the range reaches beyond the truth."""
        counts = self.folder / "behind.csv"
        counts.write_text(
            "link,from,to,vehicles\n" + "".join(f"r9,7:{k:02},7:{k + 5:02},208\n" for k in range(5, 20, 5))
        )
        status, told, _ = self.calibrated(counts=counts)
        self.assertEqual(status, 0)
        line = next(line for line in told.splitlines() if line.startswith("hours in queues"))
        found = re.fullmatch(r"hours in queues: 1\.10 by the prior, (\S+) found; (\S+) to (\S+) where .*", line)
        assert found is not None, line
        near, least, most = map(float, found.groups())
        self.assertLess(near, 10)
        self.assertLess(least, near)
        self.assertGreater(most, 110.69)

    def test_held_places(self) -> None:
        """Of two places that are to be fitted one is held out, whichever comes first by the sum of its name."""
        counts = self.folder / "counts.csv"
        counts.write_text((COUNTS / "counts.csv").read_text().replace("hold", "fit"))
        status, told, _ = self.calibrated("--samples", "0", "--hold", "50", "--iterations", "1", counts=counts)
        self.assertEqual(status, 0)
        self.assertIn("the last of 1 iteration still came much nearer: give more --iterations", told)
        uses = {row[0]: row[-1] for row in self.rows("fit.csv")}
        self.assertEqual(sorted(uses.values()), ["fit", "hold"])

    def test_an_interrupt(self) -> None:
        """After the first line of the search: what is best by then is kept, whole."""
        words = [
            "calibrate",
            COUNTS,
            "--counts",
            COUNTS / "counts.csv",
            "-o",
            self.folder / "made",
            "--samples",
            "1000",
        ]
        made = subprocess.Popen(
            [sys.executable, TOOLS / "ltm-tools", *words, "--program", BUILT],
            stdout=subprocess.PIPE,
            text=True,
            preexec_fn=lambda: signal.signal(signal.SIGINT, signal.SIG_DFL),
        )
        assert made.stdout is not None
        for line in made.stdout:
            if line.split()[:1] == ["0"]:
                break
        made.send_signal(signal.SIGINT)
        told = made.stdout.read()
        self.assertEqual(made.wait(), 0)
        self.assertIn("stopped: the best so far is kept", told)
        self.assertEqual(commands.run("inspect", str(self.folder / "made"))[0], 0)

    def test_more_rows_than_the_case_may_have(self) -> None:
        """Slices of a minute cut two rows into more than the ten that its setup allows."""
        case = Case.read(COUNTS)
        case.setup = replace(case.setup, rows=10)
        case.write(self.folder / "prior")
        words = ("--start", "7:00", "--slice", "1", "--iterations", "1", "--samples", "0")
        self.assertEqual(self.calibrated(*words, prior=self.folder / "prior")[::2], (0, ""))
        self.assertGreater(len(Case.read(self.folder / "made").demand), 10)

    def test_a_session_that_is_opened_anew(self) -> None:
        """Loadings by sessions of few lines, and by one that is killed, are those of a session that takes all."""
        case = Case.read(COUNTS)
        prior = Prior(case, 60)
        last = Span((case.setup.slots - 9) * case.setup.step_ms, case.setup.slots * case.setup.step_ms)
        counts = [Count("r3", (Point("r3"),), last, Fraction(1), None, "fit", "")]
        amounts = [times * prior.units / 1000 for times in (1, 2, 0.5, 1)]
        prior.as_case().write(self.folder / "prior")
        words = str(self.folder / "prior"), counts, [], [], BUILT
        with Loader(*words) as once, Loader(*words) as often:  # type: ignore[arg-type]
            often.open.last_line = 4
            wanted = [once.load(prior.of_rows(units)) for units in amounts]
            self.assertEqual([often.load(prior.of_rows(units)) for units in amounts], wanted)
            self.assertGreater(often.open.opened, 2 * once.open.opened)
            self.assertEqual([loaded.hours.produced for loaded in wanted], [1_400_000, 2_800_000, 700_000, 1_400_000])
            once.load(prior.of_rows(amounts[1]))
            once.open.session.process.kill()
            self.assertEqual(once.load(prior.of_rows(amounts[2])), wanted[2])

    def test_what_is_refused(self) -> None:
        errors = self.folder / "errors.csv"
        errors.write_text("effect,error\nweather,0.1\n")
        for words, told in (
            (["--errors", str(errors)], 'errors.csv row 2: effect is "weather"'),
            (["--slice", "0.1"], "is no whole number of steps"),
            (["--hold", "91"], "--hold is from 0 to 90"),
            (["--processes", "0"], "--processes is from 1 to 64"),
            (["--capacities", "lane"], "--capacities is class or junction"),
            (["--capacities", "class", "--rounds", "1"], "cannot be used with --rounds"),
            (["--capacities", "class"], "no link of this case has a stop line"),
        ):
            status, _, err = self.calibrated(*words)
            self.assertEqual((status, err.count("\n")), (1, 1), err)
            self.assertIn(told, err)
        self.assertFalse((self.folder / "made").exists())


@needs_program
@needs_dask
class OnACluster(ClusterTest):
    def test_the_same_bytes(self) -> None:
        """Directions and samples are loaded by two workers; the files are those of one session here."""
        words = ["calibrate", str(COUNTS), "--counts", str(COUNTS / "counts.csv"), "--samples", "4"]
        words += ["--times", str(COUNTS / "times.csv"), "--program", str(BUILT), "-o"]
        address, *_ = self.cluster(2)
        for name, more in (("here", []), ("there", ["--scheduler", address])):
            status, _, err = commands.run(*words, str(self.folder / name), *more)
            self.assertEqual(status, 0, err)
        self.assertEqual(digest(self.folder / "there"), digest(self.folder / "here"))


if __name__ == "__main__":
    unittest.main()
