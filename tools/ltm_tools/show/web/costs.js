// The effect of all changes beside the base: the totals above the map, and the delay of each road and origin.
import { signed, unitOf, vehicles } from "./numbers.js";
import { Table } from "./table.js";

const TOTALS = [
  ["total travel time", "The time of all vehicles from when they set out to when they arrive, or the horizon ends."],
  ["delay in queues", "The part of it that vehicles stand in queues on roads, beyond the free-flow time."],
  ["delay waiting to enter", "The part of it that vehicles wait at their origin for room on the first road."],
];
const MEAN = "Delay in queues and delay waiting to enter, by the vehicles that set out.";
const LEFT = ["not arrived by the end", "Vehicles that have set out and are still on the way when the horizon ends."];

// The totals as cells, each with its name, what it means, and its numbers as texts; and the unit of times.
export function cellsOf(costs) {
  const [base, now] = [costs.base.totals, costs.now.totals], unit = unitOf(base[0], now[0]);
  const cells = TOTALS.map(([name, title], at) => ({ name: `${name} (${unit.name})`, title, now: unit.show(now[at]),
    base: unit.show(base[at]), change: signed(unit.show(now[at] - base[at]), now[at] - base[at]),
    sign: now[at] - base[at], bad: false }));
  const mean = of => (costs[of].totals[1] + costs[of].totals[2]) / costs.generated[of === "now" ? 1 : 0] / 1000 || 0;
  const [delay, was] = [mean("now").toFixed(1), mean("base").toFixed(1)], by = delay - was;
  cells.splice(1, 0, { name: "mean delay (s a vehicle)", title: MEAN, now: delay, base: was,
    change: signed(by.toFixed(1), by), sign: Math.round(10 * by), bad: false });
  const [before, after] = costs.there, more = after - before;
  cells.push({ name: LEFT[0], title: LEFT[1], now: vehicles(after), base: vehicles(before),
    change: signed(vehicles(more), more), sign: more, bad: !costs.comparable });
  return { unit, cells };
}

// The totals: each now, and below it the base and the change; gives the unit of times.
export function drawTotals(box, costs) {
  const { unit, cells } = cellsOf(costs);
  box.selectAll("div").data(cells).join(enter => {
    const one = enter.append("div");
    for (const part of ["dt", "dd", "small"]) one.append(part);
    one.select("small").append("span").attr("class", "base");
    one.select("small").append("span").attr("class", "change");
    return one;
  }).each(function (cell) {
    const one = d3.select(this).attr("title", cell.title);
    one.select("dt").text(cell.name);
    one.select("dd").text(cell.now).attr("class", cell.bad ? "worse" : null);
    one.select(".base").text(`base ${cell.base} `);
    const sign = cell.sign > 0 ? "worse" : "better";
    one.select(".change").text(cell.sign ? cell.change : "").attr("class", `change ${sign}`);
  });
  return unit;
}

// Each road and each origin, now and in the base. Of a road with its turns delays are summed, and the worst queue is
// that of one of its links.
export function rowsOf(net, costs, joined) {
  const row = (kind, name, all) => {
    const [base, now] = ["base", "now"].map(of => d3.sum(all, at => costs[of][kind][at][0]));
    const worst = all.map(at => costs.now[kind][at]).reduce((one, other) => other[1] > one[1] ? other : one);
    const street = kind === "links" ? net.streetOf(all[0]) : "";
    return { kind, at: all[0], all, name, street, base, now, change: now - base, most: worst[1], when: worst[2] };
  };
  return [...net.allRoads(joined).map(({ name, all }) => row("links", name, all)),
    ...net.nodes.map(({ name }, at) => row("nodes", name, [at]))].sort((a, b) => b.now - a.now);
}

export function roadTable(table, { clock, unit, pick, isChosen }) {
  const time = value => unit().show(value), sign = row => row.change > 0 ? "worse" : row.change < 0 ? "better" : null;
  const nameOf = row => row.kind === "nodes" ? `${row.name} (origin)` : row.street || row.name;
  return new Table(table, [
    { name: "name", label: "road", up: true, of: nameOf, text: nameOf, small: row => row.street ? row.name : "" },
    { name: "worst", label: "worst", title: "longest queue (vehicles)", of: row => row.most,
      text: row => vehicles(row.most, 1) },
    { name: "at", label: "at", title: "when the queue is longest", of: row => row.when, text: row => clock(row.when) },
    { name: "base", label: "base", title: "delay in the base", of: row => row.base, text: row => time(row.base) },
    { name: "delay", label: "delay", title: "delay now", of: row => row.now, text: row => time(row.now) },
    { name: "change", label: "change", title: "delay now against the base", of: row => Math.abs(row.change),
      text: row => signed(time(row.change), row.change), kind: sign },
  ], "change", { pick, isChosen });
}
