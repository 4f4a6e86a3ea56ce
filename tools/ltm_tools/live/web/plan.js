// The plan of a signal as a form: cycle, offset, and of each turn its green times, as text and as bars over the cycle
// that are dragged.

const WIDE = 200, TALL = 14, EDGE = 7, LEAST = 1, GREEN = /^([0-9]+)-([0-9]+)(?:\*([0-9]+)%)?$/;
const STANDARD = { cycle: 90, offset: 0, greens: [[0, 30, 100]] };
const textOf = greens => greens.map(([from, to, part]) => `${from}-${to}${part === 100 ? "" : `*${part}%`}`).join(" ");

// The green times of a text, as `0-42 50-60*40%`; null where it tells none.
export function greensOf(text) {
  const found = text.trim().split(/\s+/).filter(word => word).map(word => GREEN.exec(word));
  if (found.some(one => one === null)) return null;
  return found.map(([, from, to, part]) => [Number(from), Number(to), Number(part || 100)]);
}

// Turns that have the same green times are a phase: they are changed together.
function phasesOf(turns, greensOfTurn) {
  const phases = new Map();
  for (const turn of turns) {
    const greens = greensOfTurn(turn), key = textOf(greens);
    if (!phases.has(key)) phases.set(key, { greens: greens.map(span => [...span]), links: [], names: [] });
    phases.get(key).links.push(turn.link);
    phases.get(key).names.push(turn.name);
  }
  return [...phases.values()];
}

export class PlanForm {
  // `turns` are `{link, name}`; `plans` has by link what stands in the case: `cycle`, `offset` and `greens`.
  constructor(form, turns, plans) {
    const planned = turns.filter(({ link }) => plans.has(link)), first = planned[0];
    const stands = first ? plans.get(first.link) : STANDARD;
    this.phases = phasesOf(first ? planned : turns, ({ link }) => first ? plans.get(link).greens : STANDARD.greens);
    this.numbers = ["cycle", "offset"].map(name => this.number(form, name, stands[name]));
    this.rows = form.append("div").attr("class", "plan").selectAll("div").data(this.phases).join("div");
    this.rows.append("label").attr("title", phase => phase.names.join(", ")).text(phase => phase.names.length > 1
      ? `${phase.names.length} turns: ${phase.names[0]}, ..` : phase.names[0]);
    const self = this;
    this.texts = this.rows.append("input").attr("aria-label", phase => `green times of ${phase.names.join(", ")}`)
      .property("value", phase => textOf(phase.greens)).on("input", function () { self.typed(d3.select(this)); });
    this.bars = this.rows.append("svg").attr("viewBox", `0 0 ${WIDE} ${TALL}`).attr("class", "bars");
    this.bars.each(function (phase) { self.dragged(this, phase); });
    this.draw();
  }

  number(form, name, value) {
    form.append("span").text(name);
    const input = form.append("input").attr("type", "number").attr("min", name === "cycle" ? 1 : 0).attr("step", 1)
      .attr("required", "").attr("name", name).attr("value", value);
    form.append("span").text("s");
    return input.on("input", () => this.draw());
  }

  get cycle() {
    return Math.max(1, Number(this.numbers[0].property("value")));
  }

  typed(input) {
    const greens = greensOf(input.property("value")), phase = input.datum();
    input.node().setCustomValidity(greens === null ? "Green times are seconds of the cycle, as 0-30 45-60." : "");
    if (greens !== null) phase.greens = greens;
    this.draw();
  }

  draw() {
    const x = d3.scaleLinear([0, this.cycle], [0, WIDE]);
    this.x = x;
    this.bars.each(function (phase) {
      const rects = d3.select(this).selectAll("rect").data(phase.greens).join("rect");
      rects.attr("x", ([from]) => x(from)).attr("width", ([from, to]) => Math.max(1, x(to) - x(from)))
        .attr("y", 1).attr("height", TALL - 2).attr("opacity", ([, , part]) => 0.4 + 0.6 * part / 100);
    });
  }

  // A green is moved by its middle, and made longer or shorter by its ends.
  dragged(svg, phase) {
    let held = null;
    const secondAt = event => {
      const box = svg.getBoundingClientRect();
      return this.x.invert((event.clientX - box.left) / box.width * WIDE);
    };
    svg.addEventListener("pointerdown", event => {
      const at = secondAt(event), near = EDGE * this.cycle / WIDE;
      const green = phase.greens.find(([from, to]) => from - near <= at && at <= to + near);
      if (!green) return;
      const end = Math.abs(at - green[0]) < near ? 0 : Math.abs(at - green[1]) < near ? 1 : null;
      held = { green, end, at, was: [...green] };
      svg.setPointerCapture(event.pointerId);
    });
    svg.addEventListener("pointermove", event => held && this.drag(svg, phase, held, secondAt(event)));
    svg.addEventListener("pointerup", () => { held = null; });
  }

  drag(svg, phase, { green, end, at, was }, now) {
    const by = Math.round(now - at), { cycle } = this;
    if (end === 0) green[0] = Math.max(0, Math.min(was[1] - LEAST, was[0] + by));
    else if (end === 1) green[1] = Math.min(cycle, Math.max(was[0] + LEAST, was[1] + by));
    else {
      const move = Math.max(-was[0], Math.min(cycle - was[1], by));
      [green[0], green[1]] = [was[0] + move, was[1] + move];
    }
    d3.select(svg.parentNode).select("input").property("value", textOf(phase.greens));
    this.draw();
  }

  // What a change asks for.
  told() {
    const greens = Object.fromEntries(this.phases.flatMap(phase => phase.links.map(link => [link, phase.greens])));
    const [cycle, offset] = this.numbers.map(input => Number(input.property("value")));
    return { cycle, offset, greens };
  }
}
