// A map by keys: plus and minus zoom, 0 shows all, arrows move.

const ZOOM = 1.5, STEP = 60;
const FACTORS = { "+": ZOOM, "=": ZOOM, "-": 1 / ZOOM, "0": null };
const STEPS = { ArrowLeft: [STEP, 0], ArrowRight: [-STEP, 0], ArrowUp: [0, STEP], ArrowDown: [0, -STEP] };

export function moveByKey(map, event) {
  const factor = FACTORS[event.key], step = STEPS[event.key];
  if (event.ctrlKey || event.metaKey || factor === undefined && !step) return;
  event.preventDefault();
  if (step) map.moveBy(...step);
  else map.zoomBy(factor || undefined);
}
