"""What the whole of a case has to meet: a split row wherever traffic may come, or a route, and no more cells than may
be."""
from . import bad_case
from .bad_case import BadCase
from .cells import produced_bytes
from .leading import Leading
from .rows import Rows, Split


def check_splits(case: Rows) -> None:
    """Whether everybody who sets out has a way to go on at each node that he may come to, from slot 0 on. The rows of
    routes that a case asks for need not be made: one leads on to nodes with routes."""
    nodes = {node: number for number, node in enumerate(case.nodes)}
    ends = {node: number for number, node in enumerate(case.destinations)}
    splits = case.standing_splits()
    begins: dict[tuple[str, str], int] = {}
    for split in splits:
        pair = split.node, split.destination
        begins[pair] = min(split.from_slot, begins.get(pair, split.from_slot))
    leading = leading_of(case) if case.setup.routes else None

    def has_row(node: str, end: str) -> bool:
        return (node, end) in begins or (leading is not None and leading.leads(node, end))

    lost = {(row.origin, row.destination) for row in case.standing_demand() if not has_row(row.origin, row.destination)}
    if lost:
        origin, end = min(lost, key=lambda pair: (nodes[pair[0]], ends[pair[1]]))
        raise no_row(case, origin, end, f"vehicles set out from {origin} for {end}")
    by_node = _out_links(case)
    for split in sorted(splits, key=lambda row: (nodes[row.node], ends[row.destination], row.from_slot)):
        first = begins[split.node, split.destination]
        if first > 0:
            raise late_row(split.node, split.destination, first)
        for name, head in by_node[split.node]:
            if split.weights.get(name, 0) and head != split.destination and not has_row(head, split.destination):
                raise no_row(case, head, split.destination, f"{split_told(split)} over {name} to {head}")


def _out_links(case: Rows) -> dict[str, list[tuple[str, str]]]:
    """The links out of each node with their heads, in order."""
    found: dict[str, list[tuple[str, str]]] = {node: [] for node in case.nodes}
    for link in case.links:
        found[link.tail].append((link.name, link.head))
    return found


def split_told(split: Split) -> str:
    """The splits of a row in words."""
    since = f" from slot {split.from_slot} on" if split.from_slot else ""
    return f"traffic for {split.destination} is sent from {split.node}{since}"


def no_row(case: Rows, node: str, destination: str, reason: str) -> BadCase:
    """The fault of a node where traffic for a destination comes, and no row says how it goes on."""
    links = [name for name, _ in _out_links(case)[node]]
    if not links:
        return bad_case.no_split(node, destination, f"{reason}, and no link leaves {node}", "send it another way")
    row = (
        f"{node},{destination},0,{links[0]}=1"
        if len(links) == 1
        else f"{node},{destination},0,LINK=1, with LINK one of {', '.join(links)},"
    )
    return bad_case.no_split(
        node,
        destination,
        f"{reason}, and no row of splits.csv says how it goes on from {node}",
        f"add {row} to splits.csv; ltm routes writes a whole one, of the fastest routes",
    )


def late_row(node: str, destination: str, first: int) -> BadCase:
    """The fault of a pair whose first row begins after slot 0."""
    return bad_case.no_split(
        node,
        destination,
        f"the first row of splits.csv for node {node} and destination {destination} begins at slot {first}",
        "let it begin at slot 0, or add one that does",
    )


def leading_of(case: Rows) -> Leading:
    """From which nodes of a case ways lead to others."""
    heads: dict[str, list[str]] = {node: [] for node in case.nodes}
    for link in case.links:
        heads[link.tail].append(link.head)
    return Leading(heads)


def route_rows(case: Rows) -> int:
    """How many rows `ltm routes` makes of a case: for each destination one at each other node from which links lead
    there."""
    return rows_of(case, leading_of(case))


def rows_of(case: Rows, leading: Leading) -> int:
    """The same where it is known from which nodes ways lead to others."""
    each = leading.by_part(dict.fromkeys(leading.part, 1))
    return sum(leading.sum_of(end, each) - 1 for end in case.destinations if end in leading.part)


def check_routes(case: Rows) -> None:
    """Whether there is a route for all demand, and routes make no more rows than may be."""
    leading = leading_of(case)
    rows = rows_of(case, leading)
    if rows > case.setup.most_split_rows:
        raise bad_case.too_many_routes(rows, case.setup)
    lost = {
        (row.origin, row.destination)
        for row in case.standing_demand()
        if not leading.leads(row.origin, row.destination)
    }
    if lost:
        nodes = {node: number for number, node in enumerate(case.nodes)}
        ends = {node: number for number, node in enumerate(case.destinations)}
        origin, destination = min(lost, key=lambda pair: (nodes[pair[0]], ends[pair[1]]))
        reason = f"vehicles set out from {origin} for {destination}, and no links lead there from {origin}"
        raise bad_case.no_split(origin, destination, reason, "add a link, or take the demand out")


def check_cells(case: Rows) -> None:
    """Whether the cells are within the limit of the setup, where a history is kept."""
    cells = case.cells()
    if not case.setup.has_room(cells):
        raise bad_case.cells_over(
            cells, case.setup.most_cells, case.slots_that_fit(), case.setup.slots, produced_bytes(case)
        )
