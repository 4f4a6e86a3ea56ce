// What lies under the mouse on a map, and the words beside it.
import { apart } from "./geometry.js";

const NEAR = 9, NEAR_NODE = 6, ASIDE = 14, EDGE = 8;

// The link next to a point of the canvas, or a node there.
export function under({ shows, view }, point, event) {
  const network = shows.network(), ways = view.placed(network);
  let node = null, nearest = NEAR_NODE;
  network.nodes.forEach((one, number) => {
    const [x, y] = view.at(one.x, one.y), far = Math.hypot(point[0] - x, point[1] - y);
    if (far < nearest && shows.nodeFirst(number, event) !== null) [node, nearest] = [number, far];
  });
  if (node !== null && shows.nodeFirst(node, event)) return { node };
  let link = null, least = NEAR;
  for (const number of view.drawn(network)) {
    const far = apart(point, ways[number]);
    if (far < least) [link, least] = [number, far];
  }
  return link !== null ? { link: view.togetherWith(link)[0] } : node !== null ? { node } : {};
}

export function pointOf(canvas, event) {
  return d3.clientPoint ? d3.clientPoint(canvas, event) : d3.pointer(event, canvas);
}

export function showTip(map, event) {
  if (!map.view.fit) return;
  const { tip } = map, { box } = map.view.fit, point = pointOf(map.canvas, event);
  const text = map.shows.tell(under(map, point, event));
  tip.hidden = !text;
  if (!text) return;
  tip.textContent = text;
  tip.style.left = `${Math.min(point[0] + ASIDE, box.width - tip.offsetWidth - EDGE)}px`;
  tip.style.top = `${Math.min(point[1] + ASIDE, box.height - tip.offsetHeight - EDGE)}px`;
}
