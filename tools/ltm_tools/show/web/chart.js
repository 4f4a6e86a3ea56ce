// A chart of curves over the horizon, as both pages draw it.
import { clockOf } from "./numbers.js";

const WIDE = 402, MARGIN = { left: 46, right: 20, top: 8, bottom: 20 }, MOST_TICKS = 7, HALF_HOUR = 1.8e6, HOUR = 3.6e6;

// Whole hours or round minutes between two moments, at most seven.
export function ticksOf(first, last) {
  if (last - first < 6e4) return [first, last];
  const minutes = [1, 2, 5, 10, 15, 30].map(one => one * 6e4).find(ms => (last - first) / ms <= MOST_TICKS);
  const hours = HOUR * Math.ceil((last - first) / 6 / HOUR);
  const step = d3.tickStep(first, last, 6) > HALF_HOUR ? hours : minutes || d3.tickStep(first, last, 5);
  return d3.range(Math.ceil(first / step) * step, last + 1, step);
}

function axes(svg, x, y, tall, ticks) {
  const bottom = d3.axisBottom(x).tickValues(ticks).tickFormat(clockOf).tickSizeOuter(0);
  svg.append("g").attr("transform", `translate(0, ${tall - MARGIN.bottom})`).call(bottom);
  svg.append("g").attr("transform", `translate(${MARGIN.left}, 0)`).call(d3.axisLeft(y).ticks(tall / 45));
}

// `lines` are `{colour, values, start, step}`, those with `thin` from another loading; `bound` is a dashed line, null
// for none; `label` says what is counted, and `first` and `last` are the moments that the chart spans. Values are in
// thousandths of what the axis shows, and one that is null is left out.
export function drawChart(box, { lines, bound, label, tall, first, last }) {
  const x = d3.scaleLinear([first, last], [MARGIN.left, WIDE - MARGIN.right]);
  const top = Math.max(1, bound || 0, ...lines.map(line => d3.max(line.values) || 0)) / 1000;
  const y = d3.scaleLinear([0, top * 1.15], [tall - MARGIN.bottom, MARGIN.top]);
  const svg = box.append("svg").attr("viewBox", `0 0 ${WIDE} ${tall}`).attr("class", "chart")
    .attr("data-left", MARGIN.left).attr("data-right", WIDE - MARGIN.right);
  axes(svg, x, y, tall, ticksOf(first, last));
  svg.append("text").attr("x", MARGIN.left + 6).attr("y", MARGIN.top + 8).attr("class", "soft").text(label);
  const across = bound === null ? null : `M${MARGIN.left},${y(bound / 1000)}H${WIDE - MARGIN.right}`;
  if (across) svg.append("path").attr("d", across).attr("stroke", "var(--bound)").attr("stroke-dasharray", "5 4");
  for (const one of [...lines].sort((a, b) => Boolean(b.thin) - Boolean(a.thin))) {
    const path = d3.line().defined(value => value !== null).x((_, k) => x(one.start + k * one.step))
      .y(value => y(value / 1000))(one.values);
    svg.append("path").attr("d", path).attr("fill", "none").attr("stroke", one.colour)
      .attr("stroke-width", one.thin ? 0.9 : 1.8).attr("opacity", one.thin ? 0.6 : 1);
  }
  svg.append("path").attr("class", "now").datum({ x, low: tall - MARGIN.bottom });
}

// The upright line of each chart in a box, at a moment.
export const drawMoment = (box, moment) => box.selectAll(".now")
  .attr("d", ({ x, low }) => `M${x(moment)},${MARGIN.top}V${low}`);

// What the colours mean: `[name, colour]`, a colour null for the bound.
export function drawKey(box, entries, more) {
  const key = box.append("div").attr("class", "key");
  for (const [name, colour] of entries) {
    const one = key.append("span"), mark = one.append("i");
    if (colour === null) mark.attr("class", "bound");
    else mark.style("background", colour);
    one.append("span").text(name);
  }
  if (more) key.append("span").text(more);
}
