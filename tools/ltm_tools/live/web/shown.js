// What the colours of the live map can show: of each link an amount, the most of it for the darkest colour, the unit.
import { MOST_MISFIT, UNITS, flowWords, misfitWords, worthUnit, worthWords } from "./amounts.js";
import { unitOf } from "./numbers.js";

const STORED = { unit: "% of what the road stores", scale: 100 };
const isCounted = (net, link) => net.misfits[link] !== undefined;
const mostWorth = net => Math.max(1, ...Object.values(net.worths).map(Math.abs));

// Each by its name: `amount({ frame, net }, link)`; `most({ frame, net }, links)`, of what they store if there is none;
// `both` where it runs from less to more; `scale(net)` is the number at the end of the scale.
export const SHOWN = {
  queue: { amount: ({ frame }, link) => frame.now.queue[link], ...STORED },
  standing: { amount: ({ frame }, link) => frame.now.standing[link], ...STORED },
  change: { amount: ({ frame: { now, base } }, link) => now.queue[link] - base.queue[link], ...STORED, both: true },
  flow: { amount: ({ frame: { now } }, link) => now.passed ? now.passed[link] : 0, scale: 100,
    most: ({ frame, net }, all) => net.mostFlow(all, frame.k), unit: UNITS.flow },
  misfit: { amount: ({ net }, link) => net.misfits[link] || 0, scale: MOST_MISFIT, unit: UNITS.misfit,
    most: ({ net }, all) => MOST_MISFIT * (all.filter(link => isCounted(net, link)).length || 1), both: true },
  worth: { amount: ({ net }, link) => net.worths[link] || 0, most: ({ net }) => mostWorth(net), both: true },
};

// Those that this case has numbers for.
export const isThere = (name, net) => name === "misfit" && Object.keys(net.misfits).length > 0
  || name === "worth" && Object.keys(net.worths).length > 0 || name !== "misfit" && name !== "worth";

// The scale of what is shown: whether it runs from less to more, its unit, and the number at its end.
export function scaleOf(name, net) {
  const { both = false, unit, scale } = SHOWN[name];
  if (name !== "worth") return { both, unit, most: scale };
  const hours = unitOf(mostWorth(net));
  return { both, unit: worthUnit(hours.name), most: hours.show(mostWorth(net)) };
}

// What is told of a link beside its queue, where it is shown.
export function wordsOf(name, { frame, net }, link) {
  if (name === "flow" && frame.now.passed) return `; ${flowWords(frame.now.passed[link])}`;
  if (name === "misfit" && isCounted(net, link)) {
    const [counted, loaded] = net.counts[link].map(count => count.toFixed(1));
    return `; counted ${counted}, loaded ${loaded}, ${misfitWords(net.misfits[link])}`;
  }
  if (name !== "worth" || net.worths[link] === undefined) return "";
  const unit = unitOf(net.worths[link]);
  return `; ${worthWords(unit.show(net.worths[link]), unit.name)}`;
}
