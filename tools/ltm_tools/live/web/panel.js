// The form by which a road or a node is changed. Texts of a case go in as text alone.
import { INFORMED, KINDS } from "./kinds.js";
import { turnsOver } from "./picked.js";
import { PlanForm } from "./plan.js";

const SPAN_MS = 900000, TWICE = 700, WHOLE = { min: 0, step: 1, type: "number", required: "" };
const NOTHING = "Click a road to close it, to hold traffic back or to change its signal or speed. Shift-click a node "
  + "for its demand and shares, or type a name below and press Enter.";
const FIXED = "No vehicles set out here and none have a choice of roads here, so there is nothing to change.";

export class Panel {
  // `live` has `net`, `from`, `change(told)`, `picking`, `say(text, bad)` and
  // `sought`: how many seconds other routes took last, 0 where none were sought yet.
  constructor(box, live) {
    Object.assign(this, { box, live, kind: null, touched: false, of: null, informed: 0, whole: false, plan: null });
  }

  draw(what) {
    const { box } = this;
    this.of = what;
    this.touched = false;
    box.html("");
    if (what === null) {
      box.append("p").attr("class", "hint").text(NOTHING);
      return;
    }
    this.drawTitle(what);
    if (!what.kinds.length) {
      box.append("p").attr("class", "hint").text(FIXED);
      return;
    }
    if (!what.kinds.includes(this.kind)) [this.kind] = what.kinds;
    const kinds = box.append("div").attr("class", "kinds").attr("role", "radiogroup");
    kinds.attr("aria-label", "kind of change");
    kinds.node().addEventListener("keydown", event => this.turnKind(event));
    box.append("form").attr("autocomplete", "off");
    box.append("p").attr("class", "hint");
    this.drawKind();
  }

  drawTitle(what) {
    const title = this.box.append("h2"), name = what.street || what.name;
    title.append("span").text(`${what.road ? "Road" : "Node"} `);
    title.append("bdi").text(name);
    const under = title.append("small").text(` ${what.street ? `${what.name}, ` : ""}${what.under}`);
    if (!what.road) return;
    under.append("span").text(" from ");
    this.nodeButton(under, what.tail);
    under.append("span").text(" to ");
    this.nodeButton(under, what.head);
  }

  nodeButton(box, name) {
    box.append("button").attr("type", "button").attr("class", "link").text(name)
      .on("click", () => this.live.picking.named({ node: name }));
  }

  drawKind() {
    const self = this, told = KINDS[this.kind], form = this.box.select("form").html("");
    this.box.select(".kinds").selectAll("button").data(this.of.kinds).join("button").attr("type", "button")
      .attr("role", "radio").attr("aria-checked", one => String(one === this.kind))
      .attr("tabindex", one => one === this.kind ? 0 : -1).text(one => KINDS[one].title)
      .on("click", function () { self.turnTo(d3.select(this).datum()); });
    this.plan = null;
    if (this.kind === "signal" && this.hasPlan()) this.drawPlan(form);
    else this.drawFields(form, told);
    if (this.kind === "share") this.drawChoices(form);
    if (!told.whole) this.drawSpan(form);
    if (told.heard) this.drawInformed(form);
    form.append("button").attr("type", "submit").text(told.button);
    form.node().onsubmit = event => { event.preventDefault(); this.ask(form.node(), told); };
    this.hint();
  }

  turnTo(kind) {
    this.kind = kind;
    this.drawKind();
  }

  // Arrows lead from kind to kind, as in a group of radio buttons.
  turnKind(event) {
    const step = { ArrowRight: 1, ArrowDown: 1, ArrowLeft: -1, ArrowUp: -1 }[event.key], { kinds } = this.of;
    if (!step) return;
    event.preventDefault();
    this.turnTo(kinds[(kinds.indexOf(this.kind) + step + kinds.length) % kinds.length]);
    this.box.select(".kinds [aria-checked=true]").node().focus();
  }

  drawFields(form, told) {
    for (const [name, value, label] of told.fields(this.of)) {
      const input = form.append("input").attr("name", name).attr("aria-label", label).attr("value", Math.round(value));
      for (const [attribute, text] of Object.entries(WHOLE)) input.attr(attribute, text);
      form.append("span").text(label);
    }
  }

  // Whether a plan stands that is shown, or there are turns which have one each.
  hasPlan() {
    return this.of.isRoad || this.of.turns.some(({ link }) => this.live.net.plans.has(link));
  }

  drawPlan(form) {
    const { of, live: { net } } = this;
    if (of.crossing !== undefined) {
      const label = form.append("label").attr("class", "hear");
      label.append("input").attr("type", "checkbox").property("checked", this.whole)
        .on("change", () => { this.whole = !this.whole; this.drawKind(); });
      label.append("span").attr("title", of.crossing).text(" the whole crossing");
    }
    const isWhole = this.whole && of.crossing !== undefined;
    this.plan = new PlanForm(form, isWhole ? turnsOver(net, of.crossing) : of.turns, net.plans);
    if (isWhole) this.plan.crossing = of.crossing;
  }

  drawChoices(form) {
    const { choices, shareOf } = this.of;
    form.append("select").attr("name", "link").attr("aria-label", "road").selectAll("option").data(choices)
      .join("option").attr("value", name => name).text(name => name).property("selected", name => name === shareOf);
  }

  drawSpan(form) {
    for (const name of ["from", "to"]) {
      form.append("label").text(name + " ").append("input").attr("name", name).attr("required", "")
        .on("input", () => { this.touched = true; });
    }
    this.preset();
  }

  drawInformed(form) {
    const lacks = this.live.net.hears ? null : "Other routes are sought with python3-numpy, which is not installed.";
    const choice = form.append("label").attr("class", "hear").text("informed drivers ").append("select")
      .attr("name", "informed").property("disabled", lacks !== null).attr("title", lacks);
    choice.selectAll("option").data(INFORMED).join("option").attr("value", ([share]) => share).text(([, name]) => name)
      .property("selected", ([share]) => share === this.informed);
    choice.on("change", () => { this.informed = Number(choice.property("value")); this.hint(); });
  }

  // What a change of a road does to routes, and the way to change these.
  hint() {
    const line = this.box.select("p.hint").html(""), { of, kind, informed, live } = this;
    if (of === null || !of.road || kind === "speed" || kind === null) return;
    if (KINDS[kind].heard && informed) {
      const who = informed === 100 ? "All drivers" : "Half of the drivers";
      const took = live.sought ? ` It took ${live.sought} s the last time.` : "";
      line.text(`${who} who would use the road know of it and choose routes anew, which several loadings find.${took}`);
      return;
    }
    line.append("span").text("Nobody changes route: turning fractions stay as they are. ");
    if (of.isRoad && kind === "let_out") line.append("span").text("Its turns share the limit by their capacity. ");
    if (!of.choicesAtTail) return;
    line.append("button").attr("type", "button").attr("class", "link").text(`Send fewer this way at ${of.tail}`)
      .on("click", () => { this.kind = "share"; live.picking.named({ node: of.tail }, of.link); });
  }

  // The span begins where a user has put the slider, and lasts a quarter of an hour, until somebody writes another.
  preset() {
    if (this.touched || this.of === null) return;
    const { net, from } = this.live, k = Math.min(from, net.slots - 1);
    const end = Math.min(net.slots, k + Math.max(1, Math.round(SPAN_MS / net.step)));
    this.box.selectAll("input[name=from]").property("value", net.clock(k));
    this.box.selectAll("input[name=to]").property("value", net.clock(end));
  }

  // Asks for a change, and not for the same again that a double click asks for.
  once(what) {
    const text = JSON.stringify(what), now = performance.now();
    if (this.last && this.last.text === text && now - this.last.at < TWICE) return;
    this.last = { text, at: now };
    this.live.change({ edit: what });
  }

  ask(form, told) {
    const { of, kind, live, plan } = this, what = { kind, [of.road ? of.isRoad ? "road" : "link" : "node"]: of.name };
    if (told.heard && this.informed) what.informed = this.informed;
    if (plan !== null) Object.assign(what, plan.told(), plan.crossing === undefined ? {} : { crossing: plan.crossing });
    else for (const [name] of told.fields(of)) what[name] = Number(form.elements[name].value);
    if (kind === "share") what.link = form.elements.link.value;
    for (const name of told.whole ? [] : ["from", "to"]) {
      what[name] = live.net.boundaryOf(form.elements[name].value);
      const wrong = `"${name}" is a clock time within the horizon, as ${live.net.clock(live.from)}.`;
      if (what[name] === null) {
        live.say(wrong, true);
        return;
      }
    }
    this.once(what);
  }
}
