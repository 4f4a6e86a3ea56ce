// What is picked on the map: how it is described in the form, and its curves.
import { drawChart, drawKey } from "./chart.js";
import { OF_ROADS } from "./kinds.js";
import { queues } from "./numbers.js";

const TALL = { counts: 120, vehicles: 112 };
const lineOf = (net, values, colour, thin) => ({ values, colour, thin, start: net.start, step: net.step });

// What the form has to know of a link or a node; null of neither.
export function described(net, { link, node }, { road, share }) {
  if (link !== undefined) return describedRoad(net, link, road);
  return node === undefined ? null : describedNode(net, node, share);
}

function describedRoad(net, at, road) {
  const link = net.links[at], capacity = Math.floor(net.capacity[at] / 1000), kmh = net.kmh[at];
  const [tail, head] = [link.tail, link.head].map(one => net.nodes[one].name);
  const turns = road === undefined ? [] : net.roads.get(road).slice(1), choicesAtTail = net.choices.get(tail) || [];
  const metres = link.length + (d3.max(turns, turn => net.links[turn].length) || 0);
  const under = `${metres} m, ${kmh} km/h, ${capacity}/h,`;
  const crossing = turns.length ? net.crossingOf.get(net.links[turns[0]].name) : undefined;
  return { road: true, name: road === undefined ? link.name : road, link: link.name, isRoad: road !== undefined, kmh,
    street: net.streetOf(at), under, tail, head, capacity, kinds: OF_ROADS,
    choicesAtTail: choicesAtTail.includes(link.name), crossing,
    turns: (turns.length ? turns : [at]).map(turn => turnOf(net, turn)) };
}

// A turn by the name that people know it by.
function turnOf(net, at) {
  return { link: net.links[at].name, name: net.streetOf(at) || net.links[at].name };
}

// The turns that lead over a crossing.
export function turnsOver(net, crossing) {
  return net.crossings.get(crossing).map(link => turnOf(net, net.linkOf.get(link)));
}

function describedNode(net, at, share) {
  const { name } = net.nodes[at], choices = net.choices.get(name) || [], isOrigin = net.isOrigin.has(at);
  const demand = isOrigin ? ["demand"] : [], shares = choices.length ? ["share"] : [];
  return { road: false, name, street: "", under: isOrigin ? "an origin" : "", choices, shareOf: share,
    kinds: share ? [...shares, ...demand] : [...demand, ...shares] };
}

// The curves of links that are one road, now and in the base, or of an origin.
function curvesOf(net, curve) {
  if (curve.kind === "node") {
    return ["now", "base"].map(of => {
      const [up, down] = curve[of];
      return { up, down, queue: up.map((count, k) => count - down[k]) };
    });
  }
  const parts = new Map((curve.parts || [curve]).map(part => [net.linkOf.get(part.curve), part]));
  return ["now", "base"].map((of, at) => net.summed([...parts.keys()], link => {
    const part = parts.get(link), [up, down] = part[of];
    return { up, down, queue: queues(up, down, net.step, part.free[at]) };
  }));
}

// Curves that are still to come, of a road with its turns where `parts` has more than one link, or of an origin.
export function noCurves(kind, parts) {
  const of = name => ({ curve: name, kind, now: [[], []], base: [[], []], free: [0, 0] });
  return parts.length > 1 ? { kind: "approach", parts: parts.map(of) } : of(parts[0]);
}

// Draws the curves, those of the base thin; gives those of now.
export function drawCurves(box, net, curve) {
  const road = curve.kind !== "node", [now, base] = curvesOf(net, curve), { start, step, slots } = net;
  const parts = curve.parts || [curve], last = start + slots * step;
  const storage = road ? net.storageOf(parts.map(part => net.linkOf.get(part.curve))) : null;
  const both = names => [[now, false], [base, true]].flatMap(([one, thin]) => names
    .map(([member, colour]) => lineOf(net, one[member], `var(--${colour})`, thin)));
  const below = road ? [["standing", "standing"], ["queue", "queue"]] : [["queue", "queue"]];
  box.html("");
  if (curve.parts) {
    box.append("p").attr("class", "hint").text(`with its turns ${parts.slice(1).map(part => part.curve).join(", ")}`);
  }
  drawChart(box, { lines: both(below), bound: storage, label: "vehicles", tall: TALL.vehicles, first: start, last });
  const counts = box.append("div").attr("class", "counts"), lines = both([["up", "entered"], ["down", "left"]]);
  drawChart(counts, { lines, bound: null, label: "vehicles since the start", tall: TALL.counts, first: start, last });
  const key = [["on the road", "var(--standing)"], ["queue", "var(--queue)"], ["storage", null]];
  drawKey(box, road ? key : [["waiting", "var(--queue)"]], "thin: base");
  const names = road ? ["entered", "left"] : ["produced", "departed"];
  drawKey(counts, names.map((name, at) => [name, at ? "var(--left)" : "var(--entered)"]));
  return now;
}
