// The page of `ltm-tools live`: what the server tells is shown, and what a user does is told to it. Counts are
// thousandths of a vehicle, times milliseconds, vehicle times their product.
import { Beside } from "./beside.js";
import { CaseNetwork } from "./casenet.js";
import { drawMoment } from "./chart.js";
import { Frames } from "./frames.js";
import { List } from "./list.js";
import { listen } from "./listening.js";
import { Panel } from "./panel.js";
import { Picking } from "./picking.js";
import { Player } from "./play.js";
import { Progress } from "./progress.js";
import { Results } from "./results.js";
import { Route } from "./route.js";
import { Scenes } from "./scenes.js";
import { Sights } from "./sights.js";
import { Strip } from "./strip.js";
import { Wire, windowName } from "./wire.js";

const $ = id => document.getElementById(id), FIRST_PART = 3;

export class Live {
  constructor(token) {
    this.state = { net: null, frame: null, costs: null, list: [], you: "", revision: 0, picked: {}, found: "",
      shown: "queue", ready: false, joined: true, curves: null, strip: null, route: null };
    this.times = [];  // for tests: of each change when it was asked for, drawn, painted and counted
    this.token = token;
    this.from = 0;  // where the span of a change begins
    this.sought = 0;  // seconds that other routes took last
    this.jumps = false;  // whether the slider goes to where queues differ most
    this.say = this.say.bind(this);
    this.frames = new Frames(this);
    this.wire = new Wire({ begun: () => ({ token, window: windowName() }), hear: told => this.hear(told),
      show: words => words[0] < 0 ? this.beside.show(words) : this.frames.show(words), lost: told => this.lost(told) });
    this.parts();
    listen(this);
  }

  parts() {
    const { state } = this;
    this.progress = new Progress($("stop"), $("pending"));
    this.picking = new Picking(this, d3.select("#curves"));
    this.sights = new Sights(state, { canvas: $("network"), tip: $("tip"), pick: what => this.picking.pick(what),
      along: () => this.route.links });
    this.map = this.sights.map;
    this.beside = new Beside(this, { sheets: $("sheets"), choice: $("beside"), canvas: $("second"), tip: $("hint"),
      caption: $("caption") });
    this.panel = new Panel(d3.select("#edit"), this);
    this.list = new List(d3.select("#list"), this);
    this.results = new Results(this, { totals: d3.select("#sums"), table: d3.select("#roads table"),
      unit: d3.select("#unit") });
    this.scenes = new Scenes(d3.select("#scenes"), this);
    this.route = new Route(d3.select("#route .body"), d3.select("#routing"), this);
    this.strip = new Strip(d3.select("#strip"), d3.select("#differs"), this);
    this.player = new Player({ time: $("time"), button: $("play"), clock: $("clock") },
      { slots: () => state.net.slots, clockOf: k => this.net.clock(k), goTo: (k, byHand) => this.goTo(k, byHand) });
  }

  get net() {
    return this.state.net;
  }

  // ---- to and from the server

  say(text, bad = false) {
    $("notice").textContent = text;
    $("notice").className = bad ? "bad" : "";
    $("notice").title = text;
  }

  lost({ why, again, refused }) {
    this.frames.lost();
    this.progress.end();
    this.say(`Not connected: ${why}.${again ? " Trying again." : ""}`, true);
    $("refused").hidden = !refused;
  }

  // Asks for a change of the list.
  change(told) {
    this.times.push({ asked: performance.now(), since: this.state.revision });
    this.say("Working out the effect ..");
    this.jumps = told.edit !== undefined;
    this.wire.send({ ...told, at: this.times.length - 1 });
  }

  hear(told) {
    if (told.hello !== undefined) this.begin(told.hello);
    if (told.list !== undefined) this.showList(told);
    if (told.refused !== undefined) this.refused(told);
    if (told.seeking !== undefined) this.progress.show(told);
    if (told.notice !== undefined) this.say(told.notice, true);
    if (told.costs !== undefined) this.results.show({ ...told.costs, revision: told.revision });
    if (told.scenes !== undefined) this.scenes.show(told.scenes);
    if (told.strip !== undefined) this.strip.take(told);
    if (told.route !== undefined) this.route.show(told);
    if (told.curve !== undefined) this.picking.showCurves(told);
  }

  refused(told) {
    this.progress.end(told.at);
    this.say(told.refused, true);
    if (this.times[told.at]) this.times[told.at].refused = told.refused;
    this.list.draw(this.state.list, this.state.you);  // boxes as they are
  }

  begin(told) {
    const { state } = this, first = state.net === null;
    state.net = new CaseNetwork(told);
    state.you = told.you;
    state.shows = told.shows;
    document.body.classList.toggle("read-only", told.shows === null);
    state.frame = null;
    $("joined").hidden = !state.net.roads.size;
    document.title = `${told.name} live`;
    $("title").textContent = told.name;
    this.sights.offer();
    this.beside.offer(this.scenes.scenes);
    this.sights.legend();  // which takes room from the map
    this.map.measure();
    this.frames.lost();
    this.say("");
    if (first) {
      this.player.show(Math.round(told.slots / FIRST_PART), true);
      this.picking.pick({});
    } else {
      this.frames.see(this.player.here());
      this.picking.tell();
      this.route.tell();
      this.beside.tell();
    }
  }

  goTo(k, byHand) {
    this.frames.see(k);
    if (byHand) [this.from, this.jumps] = [k, false];
    this.panel.preset();
    this.drawMoment();
    if (this.state.strip) this.strip.drawBars();
  }

  drawMoment() {
    drawMoment(d3.select("#curves"), this.net.start + this.player.here() * this.net.step);
    this.route.drawNow();
  }

  // ---- the list

  // Undoes what this window changed last, or redoes what it undid last.
  undo(again = false) {
    if (!$(again ? "redo" : "undo").disabled) this.change(again ? { again: true } : { back: true });
  }

  remove(id) {
    this.change({ undo: id });
  }

  switch(id, on) {
    this.change({ switch: id, on });
  }

  showList(told) {
    const { state } = this;
    Object.assign(state, { list: told.list, ready: told.ready, revision: told.revision });
    this.list.draw(told.list, state.you);
    if (state.strip) this.strip.drawBars();
    $("count").textContent = told.ready ? told.list.length || "" : "the base is being fetched";
    for (const id of ["script", "case", "page"]) $(id).disabled = !told.ready;
    $("undo").disabled = !told.undo;
    $("redo").disabled = !told.redo;
    if (told.recomputed !== undefined) this.settled(told);
    this.frames.renew(told.revision, this.player.here());
  }

  settled(told) {
    this.say(told.sought ? `Other routes were found in ${told.sought} s.` : "");
    $("notice").title = `${Math.round(told.ms)} ms; ${told.recomputed} pairs of node and slot anew`;
    if (!told.sought) return;
    this.sought = told.sought;
    this.progress.end();
    this.panel.hint();
  }

  colourBy(what) {
    this.state.shown = what;
    this.sights.legend();
    if (this.state.frame && !this.frames.isThere()) this.frames.see(this.player.here());
    this.draw();
  }

  draw() {
    this.map.draw();
    this.beside.draw();
  }
}
