// The effect of the list: the totals above the map, and the table of roads and origins.
import { drawTotals, roadTable, rowsOf } from "./costs.js";
import { unitOf } from "./numbers.js";
import { mostRows } from "./table.js";

const NOT_COMPARABLE = "Do not compare these hours: the vehicles not arrived by the end differ by over 0.1 % of all.";

export class Results {
  // `live` has `state`, `net`, `times`, `player`, `picking` and `say(text, bad)`.
  constructor(live, { totals, table, unit }) {
    Object.assign(this, { live, totals, unitBox: unit, unit: unitOf(0), scenes: [] });
    const isChosen = row => (row.kind === "links" ? live.state.picked.link : live.state.picked.node) === row.at;
    this.table = roadTable(table, { clock: k => live.net.clock(k), unit: () => this.unit, isChosen,
      pick: row => this.pick(row) });
  }

  pick(row) {
    this.live.player.show(row.when);
    this.live.picking.picked(row.kind === "links" ? { link: row.at } : { node: row.at });
  }

  show(costs) {
    const { state, times, say } = this.live, one = times[times.length - 1];
    state.costs = costs;
    this.unit = drawTotals(this.totals, costs);
    if (!costs.comparable) say(NOT_COMPARABLE, true);
    this.draw();
    this.live.scenes.draw();
    if (one && one.counted === undefined && costs.revision > one.since) one.counted = performance.now();
  }

  // Whether a road has any delay in the base, now, or in a scenario.
  hasDelay(row) {
    return row.base || row.now || this.scenes.some(delay => delay(row));
  }

  // Gives the table a column for each scenario that is kept.
  setScenes(scenes) {
    const delay = ({ costs }) => row => d3.sum(row.all, at => costs.now[row.kind][at][0]);
    this.scenes = scenes.map(delay);
    const columnOf = one => ({ name: `of ${one.name}`, label: one.name, title: `delay in scenario ${one.name}`,
      of: delay(one), text: row => this.unit.show(delay(one)(row)) });
    this.table.setMore(scenes.map(columnOf));
    this.draw();
  }

  // Roads and origins with any delay, or all that the search finds.
  draw() {
    const { state: { costs, found, joined }, net } = this.live, words = found.toLowerCase();
    if (costs === null) return;
    const isFound = row => net.isRoadCalled({ name: row.name, all: row.kind === "links" ? row.all : [] }, words);
    const rows = rowsOf(net, costs, joined).filter(row => words ? isFound(row) : this.hasDelay(row));
    const first = rows.length > mostRows ? `, the first ${mostRows}` : "";
    this.unitBox.text(`${this.unit.name}; ${rows.length} ${words ? "found" : "with delay"}${first}`);
    this.table.show(rows);
  }
}
