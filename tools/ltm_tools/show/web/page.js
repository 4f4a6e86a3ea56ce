// The page of `ltm-tools page`. All counts are thousandths of a vehicle, all times milliseconds, as in the files of a
// case.
import { MOST_MISFIT, UNITS, flowWords, misfitWords, worthUnit, worthWords } from "./amounts.js";
import { drawChart, drawKey, drawMoment } from "./chart.js";
import { middleOf } from "./geometry.js";
import { SIGNS, drawScale, drawSigns } from "./legend.js";
import { Loading } from "./loading.js";
import { RoadMap } from "./map.js";
import { vehicles } from "./numbers.js";
import { Player } from "./play.js";
import { drawStory, marksOf } from "./story.js";
import { EffectTable, QueueTable } from "./tables.js";

const TALL = { upper: 190, lower: 130 };
const $ = id => document.getElementById(id);
const data = JSON.parse($("data").textContent), cases = data.cases.map(told => new Loading(told));
const state = { at: 0, boundary: 0, chosen: null, shown: "queue", found: "", joined: true };
const here = () => cases[state.at], hereK = () => Math.min(state.boundary, here().slots);
const at = k => here().clock(k);

// ---- the map

const titleOf = link => state.joined && here().roadFrom.get(link) || here().links[link].name;
const nameOf = what => what.link !== undefined ? here().links[what.link].name : here().nodes[what.node].name;
const waits = node => here().originAt.has(node) ? here().waiting(here().originAt.get(node), hereK()) : 0;
const [base, now] = [cases[0], cases[cases.length - 1]], { story } = data;
const mostSaved = d3.max(Object.values(base.savings), Math.abs) || 1;
const isCounted = link => here().misfits[link] !== undefined;
const stored = { most: all => here().storageOf(all), unit: "% of what the link stores", scale: 100 };
const SHOWN = {
  queue: { amount: link => Math.max(0, here().queue(link, hereK())), ...stored },
  standing: { amount: link => here().standing(link, hereK()), ...stored },
  // the queue now against the base, whichever of them is shown
  change: { amount: link => now.queue(link, hereK()) - base.queue(link, hereK()), ...stored, both: true },
  flow: { amount: link => here().flow(link, hereK()), most: all => here().mostFlow(all, hereK()),
    unit: UNITS.flow, scale: 100 },
  misfit: { amount: link => here().misfits[link] || 0, most: all => MOST_MISFIT * (all.filter(isCounted).length || 1),
    unit: UNITS.misfit, scale: MOST_MISFIT, both: true },
  worth: { amount: link => here().savings[link] || 0, most: () => mostSaved,
    unit: worthUnit(data.savings), scale: mostSaved, both: true },
};
const shown = () => SHOWN[state.shown];

function chosen() {
  const one = here(), [link] = one.linksOf(state.chosen, state.joined), origin = one.originOf.get(state.chosen);
  return link !== undefined ? { link } : origin !== undefined ? { node: one.origins[origin].node } : {};
}

function tell(what) {
  if (what.node !== undefined) return `origin ${nameOf(what)}: ${vehicles(waits(what.node))} waiting`;
  if (what.link === undefined) return "";
  const [standing, queue] = ["standing", "queue"].map(of => vehicles(here()[of](what.link, hereK())));
  const flow = flowWords(here().flow(what.link, hereK())), name = here().shown(nameOf(what));
  const more = here().misfits[what.link];
  const counted = more === undefined ? "" : `, ${misfitWords(more)}`;
  const saved = here().savings[what.link];
  const worth = saved === undefined ? "" : `, ${worthWords(saved.toFixed(2), data.savings)}`;
  return `${name}: ${standing} on it, ${queue} in the queue, ${flow}${counted}${worth}`;
}

const map = new RoadMap($("network"), $("tip"), {
  networks: cases, network: here, waiting: waits, chosen, tell,
  amount: link => shown().amount(link), most: all => shown().most(all),
  marks: () => story && here() === now ? marksOf(now, story.changes, hereK()) : new Map(),
  nodeFirst: node => waits(node) > 0 ? true : null,
  choose: what => choose(what.link !== undefined ? titleOf(what.link) : what.node !== undefined ? nameOf(what) : null),
});

// ---- the curves of a link or an origin

function drawLink() {
  const box = d3.select("#link"), one = here();
  const told = state.chosen === null ? null : one.curvesOf(state.chosen, state.joined);
  box.html("");
  if (told === null) {
    const none = state.chosen !== null && `${state.chosen} is not in this case.`;
    box.append("p").attr("class", "hint").text(none || "Click a link, or a line of the table, to see its curves.");
    return;
  }
  const other = cases.length > 1 ? cases[1 - state.at] : null;
  const beside = other && other.curvesOf(state.chosen, state.joined);
  box.append("h2").text(told.title + " ").append("small").text(told.under);
  const first = Math.min(...cases.map(each => each.start));
  const last = Math.max(...cases.map(each => each.start + each.slots * each.step));
  const linesOf = (of, curves, thin) => curves.map(([, colour, values]) => ({ colour, values, start: of.start,
    step: of.step, thin }));
  for (const [part, bound, label] of [["upper", null, "vehicles since the start"], ["lower", told.bound, "vehicles"]]) {
    const lines = [...linesOf(one, told[part], false), ...(beside ? linesOf(other, beside[part], true) : [])];
    drawChart(box, { lines, bound, label, tall: TALL[part], first, last });
  }
  const storage = told.bound === null ? [] : [["storage", null]];
  drawKey(box, [...told.upper, ...told.lower, ...storage], beside ? `thin: ${other.name}` : null);
  drawNow();
}

const drawNow = () => drawMoment(d3.select("#link"), here().start + hereK() * here().step);

// ---- the table

const page = { here, state, at, choose: (name, k) => { choose(name); player.show(k); } };
const parts = [d3.select("#list table"), d3.select("#count"), page];
const unit = story && drawStory(story, { box: d3.select("#story"), totals: d3.select("#totals") });
const table = story ? new EffectTable(...parts, { costs: story.costs, unit }) : new QueueTable(...parts, data);

// ---- what a user does

const player = new Player({ time: $("time"), button: $("play"), clock: $("clock") },
  { slots: () => here().slots, clockOf: at, goTo: k => { state.boundary = k; map.draw(); drawNow(); } });

function choose(name) {
  state.chosen = name;
  table.mark();
  drawLink();
  map.draw();
}

function turnTo(index) {
  const moment = here().start + state.boundary * here().step;
  state.at = index;
  const one = here();
  d3.selectAll("#switch button").attr("aria-checked", (_, each) => String(each === index));
  if (!story) drawTotals(one.totals);
  table.draw();
  drawLink();
  player.show(Math.round((moment - one.start) / one.step));
}

function drawTotals(totals) {
  d3.select("#totals").html("").selectAll("div").data(totals).join("div").each(function ([name, text]) {
    d3.select(this).append("dt").text(name);
    d3.select(this).append("dd").text(text);
  });
}

function pickTyped(name) {
  const one = here(), link = one.linkNamed(name);
  if (link === undefined && !one.roads.has(name) && !one.originOf.has(name)) return;
  choose(link !== undefined && !(state.joined && one.roads.has(name)) ? titleOf(link) : name);
}

function drawColours() {
  drawScale(d3.select("#scale"), Boolean(shown().both), shown().unit, shown().scale);
  map.draw();
}

function listen() {
  for (const [id, factor] of [["in", 1.5], ["out", 1 / 1.5], ["fit"]]) {
    $(id).addEventListener("click", () => map.zoomBy(factor));
  }
  $("shown").addEventListener("change", event => { state.shown = event.target.value; drawColours(); });
  $("search").addEventListener("input", event => { state.found = event.target.value; table.draw(); });
  $("search").addEventListener("keydown", event => { if (event.key === "Enter") pickTyped(event.target.value); });
  $("joined").hidden = !cases.some(one => one.joined);
  $("joined").addEventListener("change", event => { state.joined = event.target.checked; choose(null); table.draw(); });
}

function begin() {
  $("title").textContent = data.title;
  const switches = cases.length > 1 ? cases : [];
  d3.select("#switch").selectAll("button").data(switches).join("button").attr("role", "radio").text(one => one.name)
    .each(function (_, index) { this.addEventListener("click", () => turnTo(index)); });
  for (const [value, told] of [["misfit", "misfits"], ["worth", "savings"]]) {
    document.querySelector(`#shown [value=${value}]`).hidden = !cases.some(one => Object.keys(one[told]).length);
  }
  drawSigns(d3.select("#signs"), SIGNS);
  $("change").hidden = cases.length < 2 || base.links.length !== now.links.length;
  listen();
  map.measure();
  drawColours();
  turnTo(0);
  map.measure();  // anew, as the numbers above the map have taken room
  player.show(data.boundary);
  const wayOf = name => map.wayInWindow(here().linkOf.get(name));
  // for tests: the numbers as the page works them out, and how long it took to open
  const part = name => map.partOf(here().linkOf.get(name));
  window.ltm = { state, cases, way: wayOf, middle: name => middleOf(wayOf(name)), part, opened: performance.now() };
}

begin();
