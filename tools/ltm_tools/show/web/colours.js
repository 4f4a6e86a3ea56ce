// The colours of a map and its charts. Those with names stand in `shared.css`, which is their one home; scales run from
// light to dark, so that a grey print and every eye can order them.

const styles = getComputedStyle(document.documentElement);
const named = name => styles.getPropertyValue(`--${name}`).trim();

export const INK = named("ink");
export const GROUND = named("ground");
export const HALO = named("halo");
export const FREE = named("free");
export const CHOSEN = named("chosen");
export const WAITING = named("waiting");
export const WAITING_CHOSEN = named("waiting-chosen");
export const BACKGROUND = Object.fromEntries(["road", "rail", "water", "green", "building", "other"]
  .map(kind => [kind, named(`back-${kind}`)]));

const PARTS = 100;
const ramp = names => d3.scaleLinear().domain(names.map((_, at) => at / (names.length - 1))).range(names.map(named))
  .interpolate(d3.interpolateLab);
const more = ramp(["more-1", "more-2", "more-3", "more-4"]), less = ramp(["less-1", "less-2", "less-3", "less-4"]);
const step = (scale, percent) => percent === 0 ? FREE : d3.rgb(scale((percent - 1) / (PARTS - 1))).toString();
const warm = d3.range(PARTS + 1).map(percent => step(more, percent));
const cold = d3.range(PARTS + 1).map(percent => step(less, percent));

// In whole percent, and never 0 where there is something.
export const percentOf = part => part === 0 ? 0 : Math.sign(part) * Math.max(1, Math.round(PARTS * Math.abs(part)));

// The colour of a part from -1 to 1 of what a road stores.
export function colourOf(part) {
  const percent = percentOf(part);
  return percent < 0 ? cold[-percent] : warm[percent];
}

// The scale as a style: from 0 on, or with `both` from less than the base to more.
export function gradient(both) {
  const tens = d3.range(5, PARTS + 1, 5), up = tens.map(percent => warm[percent]);
  const down = [...tens].reverse().map(percent => cold[percent]);
  return `linear-gradient(to right, ${(both ? [...down, FREE, ...up] : up).join(", ")})`;
}
