// Lines on a map: where links run, their sides, and how far a point is from them.

const BENT_STEPS = 16, MOST_MITRE = 2.5, SMALL = 1e-9, MOST_BAR = 130;
const apartness = (a, b) => Math.hypot(b[0] - a[0], b[1] - a[1]);

// Where a link runs: along its shape, or from node to node, bent to the left where its line would run over another
// node.
export function pointsOf(nodes, { tail, head, bend, shape }) {
  if (shape) return shape;
  const { x, y } = nodes[tail], east = nodes[head].x - x, north = nodes[head].y - y;
  const steps = bend === 0 ? 1 : BENT_STEPS;
  return d3.range(steps + 1).map(step => {
    const part = step / steps, aside = 4 * bend * part * (1 - part);
    return [x + part * east - aside * north, y + part * north + aside * east];
  });
}

// A line so far to the right of another; at a corner where both sides of it meet, or not much farther out.
export function beside(places, off) {
  const sides = d3.pairs(places, (a, b) => {
    const length = apartness(a, b) || SMALL;
    return [-(b[1] - a[1]) / length, (b[0] - a[0]) / length];
  });
  return places.map(([x, y], index) => {
    const before = sides[Math.max(0, index - 1)], after = sides[Math.min(index, sides.length - 1)];
    const right = [before[0] + after[0], before[1] + after[1]], square = right[0] ** 2 + right[1] ** 2;
    const far = off * Math.min(2 / (square || SMALL), MOST_MITRE / Math.sqrt(square || SMALL));
    return [x + right[0] * far, y + right[1] * far];
  });
}

// How far a point is from a line.
export function apart(point, way) {
  let least = Infinity;
  for (let index = 1; index < way.length; index++) {
    const last = way[index - 1], east = way[index][0] - last[0], south = way[index][1] - last[1];
    const along = (point[0] - last[0]) * east + (point[1] - last[1]) * south;
    const part = Math.max(0, Math.min(1, along / (east * east + south * south || SMALL)));
    least = Math.min(least, Math.hypot(point[0] - last[0] - part * east, point[1] - last[1] - part * south));
  }
  return least;
}

export const lengthOf = way => d3.sum(d3.pairs(way, apartness));

// The point in the middle of a line, and the direction of the line there.
export function middleAndWay(way) {
  const lengths = d3.pairs(way, apartness);
  let left = d3.sum(lengths) / 2, index = 0;
  while (index < lengths.length - 1 && left > lengths[index]) left -= lengths[index++];
  const part = lengths[index] > 0 ? left / lengths[index] : 0, [a, b] = [way[index], way[index + 1]];
  return { middle: [0, 1].map(i => a[i] + part * (b[i] - a[i])), way: [b[0] - a[0], b[1] - a[1]] };
}

export const middleOf = way => middleAndWay(way).middle;

// A round length in metres that a bar of at most so many pixels can show.
export function roundLength(metresPerPixel) {
  const most = MOST_BAR * metresPerPixel, power = 10 ** Math.floor(Math.log10(most));
  return power * (most >= 5 * power ? 5 : most >= 2 * power ? 2 : 1);
}
