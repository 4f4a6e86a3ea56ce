"""What a case asks for in its setup so that it may be as large as it is, and the rule by which what moves is
floored."""
from __future__ import annotations

from ..errors import TooLarge
from ..formats import (
    MOST_CELLS_ASKED,
    MOST_DEMAND_ROWS,
    MOST_DESTINATIONS,
    MOST_DESTINATIONS_ASKED,
    MOST_FILE_BYTES,
    MOST_LARGE_FILE_BYTES,
    MOST_LINKS,
    MOST_LINKS_ASKED,
    MOST_ROWS_ASKED,
    MOST_SPLIT_ROWS,
    WITHOUT_HISTORY,
    count_text,
    counted,
)
from .cells import ask_for_cells, cells_advice
from .history import is_city, too_large
from .matrix import Matrix, as_matrix
from .rows import Rows
from .valid import leading_of, route_rows
from .writing import demand_bytes, split_bytes

ROWS_ROUNDED_TO = 1_000
READ = "are read"
MOVES_ABOVE = 16
"""With more destinations than these an import lets what moves be floored for each turn."""


def ask_for_sizes(
    case: Rows, moves: bool | None = None, history: bool | None = True, routes: bool | None = False
) -> list[str]:
    """A line for each column by which the setup of a case asks for more than it may have without, for the rule by which
    what moves is floored where one is set, and for the cells. `moves` says the rule, and without it the number of
    destinations does. A case without splits may have as many rows as routes to its destinations need. `history` says
    whether it keeps a history; where that is left open it does unless it is too large. `routes` says whether the nodes
    of a case without splits take their routes, which need not be written then; where that is left open they do if the
    case keeps no history and is a city."""
    setup, told, rows = case.setup, [], rows_needed(case)
    if not history:
        over = too_large(case, max(rows))
        setup.history = history is None and not over
        told += [] if setup.history else [history_line(case, over)]
    if len(case.links) > MOST_LINKS:
        setup.links = len(case.links)
        told.append(
            f"{counted(setup.links, 'link')}, so the column links of setup.csv asks for as many, as without it"
            f" {count_text(MOST_LINKS)} may be"
        )
    ends = len(case.destinations)
    if ends > MOST_DESTINATIONS:
        setup.destinations = ends
        told.append(
            f"{counted(ends, 'destination')}, so the column destinations of setup.csv asks for as many, as"
            f" without it {MOST_DESTINATIONS} may be"
        )
    if case.splits is None and (not setup.history and is_city(case, max(rows)) if routes is None else routes):
        setup.routes, case.splits = True, []
        told.append(routes_line(case, rows[1], routes is None))
    matrix = None if setup.history else as_matrix(case.demand)
    told += [] if matrix is None else [matrix_line(matrix, rows[0])]
    told += ask_for_rows(case, rows[0], 0 if setup.routes else rows[1], matrix)
    setup.moves = ends > MOVES_ABOVE if moves is None else moves
    if setup.moves and moves is None:
        told.append(
            f"{counted(ends, 'destination')}, more than {MOVES_ABOVE}, so the column moves of setup.csv is 1:"
            f" what moves through a turn is floored"
            " for the turn, and not for each destination, which would take a part of what can pass"
        )
    return [*told, ask_for_cells(case, history)]


def history_line(case: Rows, over: list[str]) -> str:
    """That a case keeps no history: why, what that means, and what would let it keep one."""
    why = f"too large for the history of a loading, with {' and '.join(over)}" if over else "small enough for a history"
    asked = (
        "the column history of setup.csv is 0 all the same" if not over else "so the column history of setup.csv is 0"
    )
    advice = f"; for a session, and so for the live map, {session_advice(case)}" if over else ""
    return f"{why}: {asked}, {WITHOUT_HISTORY}{advice}"


def session_advice(case: Rows) -> str:
    """What would let a case that is too large for a history have one."""
    if len(case.links) > MOST_LINKS_ASKED:
        return "take a smaller area"
    ends = len(case.destinations)
    if ends <= MOST_DESTINATIONS_ASKED:
        return f"give {cells_advice(case)}" if case.cells() > MOST_CELLS_ASKED else "take fewer destinations"
    fitting = min(MOST_DESTINATIONS_ASKED, ends * case.slots_that_fit(MOST_CELLS_ASKED) // case.setup.slots)
    if fitting:
        more = f", or {MOST_DESTINATIONS_ASKED} with a longer step or a shorter horizon"
        return f"give --destinations {fitting}{more if fitting < MOST_DESTINATIONS_ASKED else ''}"
    return f"take a smaller area, or a longer step and at most {MOST_DESTINATIONS_ASKED} destinations"


def matrix_line(matrix: Matrix, rows: int) -> str:
    """That the demand is written as a matrix, and what that means."""
    pairs, slices = sum(1 for _ in matrix.pairs()), len(matrix.slices)
    return (
        f"as the case keeps no history, its demand is a matrix: demand.csv has one record for each of"
        f" {counted(pairs, 'pair')} of origin and destination, and profile.csv says when the vehicles of all of them"
        f" set out, in {counted(slices, 'slice')} of slots; ltm and all tools read this as {counted(rows, 'row')}"
    )


def rows_needed(case: Rows) -> tuple[int, int]:
    """How many rows of demand a case has, and of splits, or of routes to its destinations where it has no splits."""
    return len(case.standing_demand()), route_rows(case) if case.splits is None else len(case.standing_splits())


def routes_line(case: Rows, rows: int, by_size: bool) -> str:
    """The line on the column `routes` of a case with so many rows of routes, which was asked for or, by its size, was
    not; TooLarge where these are more than may be."""
    most = case.setup.most_split_rows
    if rows > most:
        raise TooLarge(
            f"{count_text(rows)} rows of routes, and at most {count_text(most)} may be: take fewer destinations, or a"
            " smaller network"
        )
    if not by_size:
        return "the column routes of setup.csv is 1, so nodes take their free-flow routes and splits.csv has no record"
    return (
        "as the case is so large, the column routes of setup.csv is 1: nodes take their free-flow routes without a"
        f" record of splits.csv, of which ltm routes would write {count_text(rows)}; --routes 0 leaves that to it"
    )


def route_bytes(case: Rows) -> int:
    """The bytes that the `splits.csv` of `ltm routes` has at least: a row with one link for each route."""
    shortest: dict[str, int] = {}
    for link in case.links:
        shortest[link.tail] = min(shortest.get(link.tail, len(link.name)), len(link.name))
    row = {node: len(node) + size + len(",,0,=1\n") for node, size in shortest.items()}
    leading = leading_of(case)
    each, rows = leading.by_part(dict.fromkeys(leading.part, 1)), leading.by_part(row)
    return sum(
        (leading.sum_of(end, each) - 1) * len(end) + leading.sum_of(end, rows) - row.get(end, 0)
        for end in case.destinations
        if end in leading.part
    )


def ask_for_rows(case: Rows, demand: int, splits: int, matrix: Matrix | None = None) -> list[str]:
    """The line on the column `rows` for so many rows of demand, which may be written as a matrix, and of splits or
    routes; none where it is not needed. What it asks for is never less than may be without it."""
    most = case.setup.rows_asked
    if demand <= MOST_DEMAND_ROWS and splits <= MOST_SPLIT_ROWS:
        return []
    rows = max(MOST_SPLIT_ROWS, -(-max(demand, splits) // ROWS_ROUNDED_TO) * ROWS_ROUNDED_TO)
    if rows > most:
        raise TooLarge(
            f"{count_text(demand)} rows of demand and {count_text(splits)} of"
            f" {'routes' if case.splits is None else 'splits'}, and at most"
            f" {count_text(most)} of each may be: take fewer destinations, or a smaller network"
        )
    routes = case.splits is None
    split_size = route_bytes(case) if routes else split_bytes(case)
    large = MOST_FILE_BYTES if case.setup.history else MOST_LARGE_FILE_BYTES
    files = (
        ("demand", demand_bytes(case, matrix), large, READ),
        ("splits", split_size, *((MOST_FILE_BYTES, "are written by ltm routes") if routes else (large, READ))),
    )
    for file, size, most, why in files:
        if size > most:
            raise TooLarge(
                f"{file}.csv would have {count_text(size)} bytes{' or more' * (why != READ)}, and at most"
                f" {count_text(most)} {why}: take longer slices, shorter names, or fewer destinations"
            )
        if size > MOST_FILE_BYTES:  # which a setup that asks for so many rows may have
            rows = max(rows, MOST_ROWS_ASKED + ROWS_ROUNDED_TO)
    case.setup.rows = rows
    return [
        f"{count_text(demand)} rows of demand and {count_text(splits)} of"
        f" {'routes' if case.splits is None else 'splits'}, so the column rows of setup.csv asks for"
        f" {count_text(rows)} of each, as without it {count_text(MOST_DEMAND_ROWS)} and"
        f" {count_text(MOST_SPLIT_ROWS)} may be"
    ]
