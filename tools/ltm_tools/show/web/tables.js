// The tables of a page that needs no server: of queues, or of a scenario what its changes do road by road.
import { roadTable, rowsOf } from "./costs.js";
import { vehicles } from "./numbers.js";
import { Table, mostRows } from "./table.js";

// `page` has `here()` for the loading that is shown, `state`, `at(k)` and `choose(name, k)`.
function common(page) {
  return { pick: row => page.choose(row.name, row.kind === "links" || row.kind === "nodes" ? row.when : row.at),
    isChosen: row => row.name === page.state.chosen };
}

const more = (rows, text) => text + (rows.length > mostRows ? `; the first ${mostRows}` : "");

export class QueueTable {
  // `told` has `least` and `unit` in words.
  constructor(box, count, page, told) {
    Object.assign(this, { count, page, told });
    const at = page.at, streetOf = row => this.streetOf(row), share = row => `${row.share.toFixed(1)} %`;
    this.table = new Table(box, [
      { name: "name", label: "name", up: true, of: row => streetOf(row) || row.name,
        text: row => row.kind === "origin" ? `${row.name} (origin)` : streetOf(row) || row.name,
        small: row => streetOf(row) ? row.name : "" },
      { name: "from", label: "from", up: true, of: row => row.first, text: row => at(row.first) },
      { name: "to", label: "to", of: row => row.last, text: row => row.lasts ? "…" : at(row.last) },
      { name: "worst", label: "worst", of: row => row.worst, text: row => vehicles(row.worst) },
      { name: "at", label: "at", of: row => row.at, text: row => at(row.at) },
      { name: "share", label: "share", of: row => row.share, text: row => row.share === null ? "" : share(row) },
      { name: "delay", label: "delay", of: row => row.delay, text: row => row.told },
    ], "delay", common(page));
  }

  linksOf(row) {
    return row.kind === "link" ? this.page.here().linksOf(row.name, this.page.state.joined) : [];
  }

  streetOf(row) {
    return row.kind === "origin" ? "" : this.page.here().streetOf(this.linksOf(row)[0]);
  }

  draw() {
    const { state, here } = this.page, one = here(), words = state.found.toLowerCase();
    const rows = (state.joined && one.joined || one.queues)
      .filter(row => one.isRoadCalled({ name: row.name, all: this.linksOf(row) }, words));
    this.count.text(more(rows, `${rows.length} of at least ${this.told.least} vehicles; delay in ${this.told.unit}`));
    this.table.show(rows);
  }

  mark() {
    this.table.mark();
  }
}

export class EffectTable {
  // `costs` are those of a live map, `unit` that of its totals.
  constructor(box, count, page, { costs, unit }) {
    Object.assign(this, { count, page, costs, unit });
    this.table = roadTable(box, { clock: page.at, unit: () => unit, ...common(page) });
  }

  draw() {
    const { state, here } = this.page, one = here(), words = state.found.toLowerCase();
    const isFound = row => one.isRoadCalled({ name: row.name, all: row.kind === "links" ? row.all : [] }, words);
    const rows = rowsOf(one, this.costs, state.joined).filter(row => words ? isFound(row) : row.base || row.now);
    this.count.text(more(rows, `${rows.length} ${words ? "found" : "with delay"}; ${this.unit.name}`));
    this.table.show(rows);
  }

  mark() {
    this.table.mark();
  }
}
