"""From which nodes ways lead to others, asked of many: nodes from which ways lead to each other are taken as one."""
from __future__ import annotations

from collections.abc import Iterable, Mapping, Sequence
from itertools import compress


def strong_parts(nodes: Iterable[str], after: Mapping[str, Iterable[str]]) -> list[set[str]]:
    """The sets of two nodes and more in which each leads to each other (Tarjan 1972, without recursion)."""
    number: dict[str, int] = {}
    low: dict[str, int] = {}
    stack: list[str] = []
    on_stack: set[str] = set()
    found = []
    for root in nodes:
        if root in number:
            continue
        number[root] = low[root] = len(number)
        stack.append(root)
        on_stack.add(root)
        work = [(root, iter(after.get(root, ())))]
        while work:
            node, rest = work[-1]
            following = next(rest, None)
            if following is None:
                work.pop()
                if work:
                    low[work[-1][0]] = min(low[work[-1][0]], low[node])
                if low[node] == number[node]:
                    part = set()
                    while node not in part:
                        part.add(stack.pop())
                    on_stack -= part
                    if len(part) > 1:
                        found.append(part)
            elif following not in number:
                number[following] = low[following] = len(number)
                stack.append(following)
                on_stack.add(following)
                work.append((following, iter(after.get(following, ()))))
            elif following in on_stack:
                low[node] = min(low[node], number[following])
    return found


class Leading:
    """The nodes of a network in parts, each of nodes that lead to each other, and from which parts ways lead to a part:
    a bit of a number for each."""

    def __init__(self, after: Mapping[str, Iterable[str]]) -> None:
        parts = strong_parts(after, after)
        self.part = {node: number for number, part in enumerate(parts) for node in part}
        for node in after:
            self.part.setdefault(node, len(self.part))
        numbers = {number: place for place, number in enumerate(dict.fromkeys(self.part.values()))}
        self.part = {node: numbers[number] for node, number in self.part.items()}
        self.before: list[set[int]] = [set() for _ in numbers]
        for node, heads in after.items():
            for head in heads:
                if self.part[head] != self.part[node]:
                    self.before[self.part[head]].add(self.part[node])
        self.found: dict[int, int] = {}
        largest = max(parts, key=lambda part: len(part), default=None)
        if largest is not None:
            self.leading(self.part[next(iter(largest))])  # which most of the others are behind

    def leading(self, part: int) -> int:
        """The parts from which ways lead to one, it among them."""
        if part not in self.found:
            marks, known, left = bytearray(len(self.before) // 8 + 1), 0, [part]
            while left:
                one = left.pop()
                if one in self.found:
                    known |= self.found[one]
                elif not marks[one >> 3] >> (one & 7) & 1:
                    marks[one >> 3] |= 1 << (one & 7)
                    left += self.before[one]
            self.found[part] = int.from_bytes(marks, "little") | known
        return self.found[part]

    def leads(self, start: str, end: str) -> bool:
        """Whether a way leads from a node to another."""
        if start == end:
            return True
        first, last = self.part.get(start), self.part.get(end)
        if first is None or last is None:
            return False
        return first == last or self.leading(last) >> first & 1 == 1

    def by_part(self, weights: Mapping[str, int]) -> list[int]:
        """What the nodes of each part have together; a node that is not named has nothing."""
        sums = [0] * len(self.before)
        for node, part in self.part.items():
            sums[part] += weights.get(node, 0)
        return sums

    def sum_of(self, end: str, by_part: Sequence[int]) -> int:
        """What all nodes from which ways lead to one have together, it among them; nothing for a node without links."""
        last = self.part.get(end)
        return 0 if last is None else sum(compress(by_part, map(int, reversed(f"{self.leading(last):b}"))))
