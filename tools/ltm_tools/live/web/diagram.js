// A route over the horizon: time to the right, the way upwards, and as colour how full each link is.
import { ticksOf } from "./chart.js";
import { FREE, colourOf } from "./colours.js";
import { clockOf } from "./numbers.js";

const WIDE = 402, LEFT = 46, RIGHT = 20, TOP = 14, BOTTOM = 20, TALL = 130, LEAST_NAMED = 10;

// Of a link in each slot what stands on it, in parts of what it stores: the mean of the slot's beginning and end.
export function sharesOf([up, down], storage) {
  const standing = up.map((count, k) => count - down[k]);
  return standing.slice(1).map((count, k) => (standing[k] + count) / 2 / storage);
}

// A picture of a pixel for each slot and each part of the way.
function picture(rows, tall) {
  const sheet = document.createElement("canvas"), pen = sheet.getContext("2d");
  sheet.width = rows[0].shares.length;
  sheet.height = tall;
  for (const { shares, low, high } of rows) {
    const [top, bottom] = [high, low].map(part => Math.round((1 - part) * tall));
    shares.forEach((share, slot) => {
      pen.fillStyle = share === 0 ? FREE : colourOf(Math.min(1, share));
      pen.fillRect(slot, top, 1, bottom - top);
    });
  }
  return sheet.toDataURL();
}

// Draws links one behind the other, each `{name, length, shares}`; the title says which loading they are of.
export function drawDiagram(box, { links, title, first, last }) {
  const whole = d3.sum(links, ({ length }) => length);
  let end = 0;
  const rows = links.map(link => ({ ...link, low: end / whole, high: (end += link.length) / whole }));
  const x = d3.scaleLinear([first, last], [LEFT, WIDE - RIGHT]), y = d3.scaleLinear([0, 1], [TALL - BOTTOM, TOP]);
  const svg = box.append("svg").attr("viewBox", `0 0 ${WIDE} ${TALL}`).attr("class", "diagram").attr("role", "img")
    .attr("aria-label", `${title}: how full each road of the route is over time`);
  svg.append("image").attr("href", picture(rows, TALL - BOTTOM - TOP)).attr("x", x(first)).attr("y", TOP)
    .attr("width", x(last) - x(first)).attr("height", TALL - BOTTOM - TOP).attr("preserveAspectRatio", "none");
  svg.append("path").attr("class", "joints").attr("d", rows.slice(1).map(({ low }) => `M${LEFT},${y(low)}H${x(last)}`)
    .join(""));
  const bottom = d3.axisBottom(x).tickValues(ticksOf(first, last)).tickFormat(clockOf).tickSizeOuter(0);
  svg.append("g").attr("transform", `translate(0, ${TALL - BOTTOM})`).call(bottom);
  const metres = d3.scaleLinear([0, whole / 1000], [TALL - BOTTOM, TOP]);
  svg.append("g").attr("transform", `translate(${LEFT}, 0)`).call(d3.axisLeft(metres).ticks(4));
  svg.append("text").attr("x", LEFT).attr("y", TOP - 4).attr("class", "soft").text(`${title}: km of the route`);
  const named = rows.filter(({ low, high }) => y(low) - y(high) >= LEAST_NAMED);
  svg.selectAll(".name").data(named).join("text").attr("class", "name").attr("x", LEFT + 4)
    .attr("y", ({ low, high }) => y((low + high) / 2) + 3).text(({ name }) => name);
  svg.append("path").attr("class", "now").datum({ x, low: TALL - BOTTOM });
}
