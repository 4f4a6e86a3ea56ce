"""Times still to go in numbers of 32 bits, worked by hand."""
from __future__ import annotations

import unittest
from unittest.mock import patch

from support import FolderTest, needs_numpy
from support_assign import TWO
from ltm_tools import libraries
from ltm_tools.case import Case

if not libraries.missing(("numpy",)):
    import numpy

    from ltm_tools.assign.assigning import plans_of
    from ltm_tools.assign.labels import Course, Label, Labels as LabelsOf
    from ltm_tools.assign.looking import Times
    from ltm_tools.assign.net import Net
    from ltm_tools.assign.spans import Spans

STEEP = 5_000_000  # ms in a slot, of which a thousand times the ms of a slot are no number of 32 bits


@needs_numpy
class Labels(FolderTest):
    def label(self, late: int = 0) -> Label:
        """Labels of two roads from `o` to `d`, which all leave half a slot behind the next boundary; at the end so much
        later."""
        net = Net(Case.read(self.case(**TWO)))
        leave = numpy.arange(1, net.slots + 2)[:, None] * net.step + numpy.full(len(net.names), net.step // 2)
        leave[-1] += late
        return Label(net, Course(net, leave))

    def test_between_a_low_and_a_very_high_one(self) -> None:
        """A link is left half way between two boundaries at whose first one is at `d`, and at whose second one has
        `STEEP` ms to go: half of them, behind a slot and a half on the way."""
        for late, bits in ((0, 32), (2**31, 64)):
            label = self.label(late)
            self.assertEqual(label.values.dtype, f"int{bits}")
            net, k = label.net, label.net.slots - 9
            place = net.node_names.index("d")
            label.values[k + 1 :] = 0
            label.values[k + 2, place] = STEEP
            label.rises[k + 1, place] = STEEP
            label.steepest[k + 1 : k + 3] = STEEP
            trip = 3 * net.step // 2
            part, trips = (numpy.full(net.leads.shape, of, label.values.dtype) for of in (net.step // 2, trip))
            going = label.by_links(k, part, trips)
            self.assertEqual(going[net.head == place].tolist(), 2 * [[STEEP // 2 + trip]])
            links = numpy.zeros((len(net.tails), 1), dtype=numpy.int64)
            self.assertEqual(label.by(k, links)[0].tolist(), [STEEP // 2 + trip])

    def test_how_steep_labels_are(self) -> None:
        """By which the width of products is decided: also where a label falls."""
        label = self.label()
        k = label.net.slots - 1
        for of_tails in (700, 20_000, 300):
            label.set(k, numpy.full((len(label.net.tails), 1), of_tails, dtype=label.values.dtype))
            label.set(k - 1, numpy.full((len(label.net.tails), 1), 10_000, dtype=label.values.dtype))
            self.assertEqual(label.steepest[k - 1], abs(of_tails - 10_000))
            self.assertEqual(label.values[k, label.net.ends[0]].tolist(), [0])

    def test_behind_the_last_vehicle(self) -> None:
        """Where all links are left in their free-flow times, and nobody is on the way, the labels are these times at
        once: as they are where boundary after boundary is worked out."""
        net = Net(Case.read(self.case(**TWO)))
        leave = numpy.arange(net.slots + 1)[:, None] * net.step + net.free
        leave[:90] += 700  # a queue, while some are on the way
        self.assertEqual(Course(net, leave).free_from(net), 90)
        times = Times(leave, numpy.repeat(numpy.arange(net.slots + 1)[:, None] * net.step, len(net.node_names), axis=1))
        found = []
        with patch.object(LabelsOf, "let_go"), patch.object(
            LabelsOf, "_set_free", autospec=True, side_effect=LabelsOf._set_free
        ) as shortened:
            for first in (90, net.slots + 2):
                with patch.object(Course, "free_from", return_value=first):
                    part = plans_of(net, net.case.standing_splits(), Spans.by_period(net.slots, 30))[0].part()
                    told, labels = part.look(times), part.labels
                assert labels is not None
                arrays = (labels.ahead, labels.time, labels.idle, labels.bests.values, labels.means.values)
                found.append([told.gaps, told.regrets, *(array.tolist() for array in arrays)])
        self.assertEqual(shortened.call_count, 7)  # from 210 to 400 s: nobody is at `o` behind 180 s
        self.assertEqual(*found)


if __name__ == "__main__":
    unittest.main()
