// Numbers of a loading as both maps show them: counts are thousandths of a vehicle, times milliseconds, and boundaries
// k run from 0.

export const vehicles = (units, decimals = 3) => (units / 1000).toFixed(decimals);

export function clockOf(ms) {
  const seconds = Math.floor(ms / 1000), two = number => String(number).padStart(2, "0");
  const rest = ms % 1000 ? "." + String(ms % 1000).padStart(3, "0").replace(/0+$/, "") : "";
  const minutes = `${Math.floor(seconds / 3600)}:${two(Math.floor(seconds / 60) % 60)}`;
  return minutes + (seconds % 60 || rest ? ":" + two(seconds % 60) + rest : "");
}

// The moment that a text tells, as 7:10 or 07:10:05; null where it tells none.
export function momentOf(text) {
  const found = /^([0-9]{1,3}):([0-5][0-9])(?::([0-5][0-9]))?$/.exec(text.trim());
  return found === null ? null : 1000 * (3600 * found[1] + 60 * found[2] + Number(found[3] || 0));
}

// The vehicles that could have left a link by boundary k in free flow: what had entered it by then, less the free-flow
// time, rounded down.
export function ready(up, k, step, free) {
  const moment = k * step - free;
  if (moment <= 0) return 0;
  const before = Math.floor(moment / step), part = moment - before * step, count = up(before);
  return part === 0 ? count : count + Math.floor((up(before + 1) - count) * part / step);
}

// The queue of a link at each boundary: the vehicles that could have left it and have not.
export function queues(up, down, step, free) {
  return Array.from(up, (_, k) => ready(at => up[at], k, step, free) - down[k]);
}

// A quotient with two decimals, halves away from 0, of whole numbers that are exact.
export function rounded(top, bottom) {
  const hundredths = (BigInt(Math.abs(top)) * BigInt(200) + BigInt(bottom)) / (BigInt(2) * BigInt(bottom));
  const text = String(hundredths).padStart(3, "0");
  return (top < 0 && hundredths > BigInt(0) ? "-" : "") + text.slice(0, -2) + "." + text.slice(-2);
}

// The unit in which vehicle time is shown, by the greatest of some: hours from ten of them on, else seconds.
export function unitOf(...times) {
  const hours = Math.max(...times.map(Math.abs)) >= 3.6e10;
  const name = hours ? "vehicle hours" : "vehicle seconds";
  return { name, show: time => rounded(time, hours ? 3.6e9 : 1e6) };
}

export const signed = (text, value) => (value > 0 && Number(text) !== 0 ? "+" : "") + text;
