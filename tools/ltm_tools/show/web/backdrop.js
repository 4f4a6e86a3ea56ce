// What lies behind the roads of a map: a pale layer of other streets, water, green and buildings, the names of streets,
// a scale bar, the north, and whom a map has to name.
import { BACKGROUND, HALO, INK } from "./colours.js";
import { lengthOf, middleAndWay, roundLength } from "./geometry.js";
import { write } from "./painting.js";

const ORDER = ["other", "green", "water", "building", "road", "rail"], LINES = { road: 1.6, rail: 1 };
const MARGIN = 14, MOST_NAMES = 120, NAME_SIZE = 11, LEAST_PART = 0.7, RIGHT_ANGLE = Math.PI / 2;

// The shapes of a background by kind, as paths about the middle of the map.
export function pathsOf(background, { east, north }, Shape = Path2D) {
  return ORDER.filter(kind => (background.shapes || {})[kind]).map(kind => {
    const path = new Shape();
    for (const flat of background.shapes[kind]) {
      for (let at = 0; at < flat.length; at += 2) {
        path[at ? "lineTo" : "moveTo"](flat[at] - east, flat[at + 1] - north);
      }
    }
    return [kind, path];
  });
}

export function paintBackground(pen, paths, view, dense) {
  const { scale, fit: { east, north } } = view, [x, y] = view.at(east, north);
  pen.setTransform(dense * scale, 0, 0, -dense * scale, dense * x, dense * y);
  for (const [kind, path] of paths) {
    pen.fillStyle = pen.strokeStyle = BACKGROUND[kind];
    if (LINES[kind]) {
      pen.lineWidth = LINES[kind] * Math.max(1, Math.min(4, Math.sqrt(view.zoom.k))) / scale;
      pen.stroke(path);
    } else pen.fill(path, "evenodd");
  }
  pen.setTransform(dense, 0, 0, dense, 0, 0);
}

// The names of streets, each on the longest of its links that is in sight and has room for it, the longer ones first.
export function paintStreets(pen, network, ways, box) {
  const longest = new Map();
  network.links.forEach((link, at) => {
    const name = link.street, isTurn = network.roadWith.has(at) && !network.roadFrom.has(at);
    if (!name || isTurn || name.includes(" to ")) return;
    const { middle: [x, y] } = middleAndWay(ways[at]), length = lengthOf(ways[at]);
    if (x < 0 || y < 0 || x > box.width || y > box.height) return;
    if (!longest.has(name) || longest.get(name).length < length) longest.set(name, { name, at, length });
  });
  const taken = [];
  for (const { name, at, length } of [...longest.values()].sort((a, b) => b.length - a.length).slice(0, MOST_NAMES)) {
    pen.font = `${NAME_SIZE}px sans-serif`;
    const wide = pen.measureText(name).width, { middle, way } = middleAndWay(ways[at]);
    const isFree = taken.every(([x, y, half]) => Math.hypot(middle[0] - x, middle[1] - y) > (wide / 2 + half) * 0.8);
    if (length < wide * LEAST_PART || !isFree) continue;
    taken.push([...middle, wide / 2]);
    const angle = Math.atan2(way[1], way[0]), upright = Math.abs(angle) > RIGHT_ANGLE ? angle + Math.PI : angle;
    write(pen, name, ...middle, { size: NAME_SIZE, angle: upright });
  }
}

// The scale bar with its length, and an arrow to the north, where the network lies where it does in the world.
function paintScale(pen, network, view) {
  const { box } = view.fit, metres = roundLength(network.metres / view.scale);
  const wide = metres / network.metres * view.scale;
  const y = box.height - MARGIN, right = box.width - MARGIN - 6;
  const lines = [[5, HALO], [2, INK]];
  for (const [width, paint] of lines) {
    pen.lineWidth = width;
    pen.strokeStyle = paint;
    pen.beginPath();
    pen.moveTo(MARGIN, y - 5);
    pen.lineTo(MARGIN, y);
    pen.lineTo(MARGIN + wide, y);
    pen.lineTo(MARGIN + wide, y - 5);
    pen.moveTo(right, MARGIN + 30);
    pen.lineTo(right, MARGIN + 12);
    pen.moveTo(right - 4, MARGIN + 17);
    pen.lineTo(right, MARGIN + 12);
    pen.lineTo(right + 4, MARGIN + 17);
    pen.stroke();
  }
  write(pen, metres >= 1000 ? `${metres / 1000} km` : `${metres} m`, MARGIN + wide / 2, y - 9);
  write(pen, "N", right, MARGIN + 4, { bold: true });
}

export function paintPlace(pen, network, view) {
  const { box } = view.fit, { attribution } = network.background;
  if (network.metres) paintScale(pen, network, view);
  if (attribution) write(pen, attribution, box.width - MARGIN, box.height - MARGIN, { align: "end" });
}
