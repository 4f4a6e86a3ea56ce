// What is picked: asked of the server, shown in the form, marked on the map and in the table.
import { described, drawCurves, noCurves } from "./picked.js";

export class Picking {
  // `live` has `state`, `net`, `wire`, `map`, `panel`, `results`, `drawMoment()` and `say(text, bad)`.
  constructor(live, curves) {
    Object.assign(this, { live, curves });
  }

  // The name of the road that a link is, where it is told with its turns.
  roadOf(link) {
    const { state, net } = this.live, all = state.joined ? net.roadWith.get(link) : undefined;
    return all && net.roadFrom.get(all[0]);
  }

  // Curves are asked for of a road, with its turns where it is told with them, or of a node where vehicles set out.
  tell() {
    const { net, state: { picked }, wire } = this.live, road = this.roadOf(picked.link);
    const link = picked.link === undefined ? null : { link: net.links[picked.link].name };
    const node = net.isOrigin.has(picked.node) ? { node: net.nodes[picked.node].name } : null;
    wire.send({ pick: road !== undefined ? { approach: road } : link || node });
  }

  // Picks a link or a node, or nothing; of a turn its road, where that is told with its turns.
  pick(what, share) {
    const { live } = this, road = this.roadOf(what.link);
    live.state.picked = road === undefined ? what : { link: live.net.roads.get(road)[0] };
    this.awaitCurves();
    if (live.route.on && what.link !== undefined) live.route.add(live.state.picked.link);
    live.panel.draw(described(live.net, live.state.picked, { road, share }));
    this.tell();
    live.results.table.mark();
    live.draw();
  }

  // Makes room for the curves that are to come, so that nothing below moves when they are there.
  awaitCurves() {
    const { state, net } = this.live, { link, node } = state.picked, isOrigin = net.isOrigin.has(node);
    state.curves = null;
    this.curves.attr("hidden", link === undefined && !isOrigin ? "" : null);
    if (link === undefined && !isOrigin) return;
    const road = this.roadOf(link), all = road === undefined ? [link] : net.roads.get(road);
    const parts = isOrigin ? [net.nodes[node].name] : all.map(one => net.links[one].name);
    drawCurves(this.curves, net, noCurves(isOrigin ? "node" : "link", parts));
  }

  // Picks, and has it in sight.
  picked(what) {
    this.pick(what);
    this.live.map.bring(this.live.state.picked);
  }

  // Picks a node or a link by its name, as a change names it.
  named({ node, link, road }, share) {
    const { net } = this.live;
    if (node !== undefined) this.pick({ node: net.nodeOf.get(node) }, share);
    else if (net.roads.has(road)) this.pick({ link: net.roads.get(road)[0] });
    else if (net.linkOf.has(link)) this.pick({ link: net.linkOf.get(link) });
    else return;
    this.live.map.bring(this.live.state.picked);
  }

  // Picks the road or node that a user has typed, or else the first that the table has found: whether there is one.
  typed(name) {
    const { net, state, results } = this.live, [first] = net.linksOf(name, state.joined);
    const link = first === undefined ? net.linkNamed(name) : first, row = results.table.first();
    if (link !== undefined) this.picked({ link });
    else if (net.nodeOf.has(name)) this.picked({ node: net.nodeOf.get(name) });
    else if (row) this.picked(row.kind === "links" ? { link: row.at } : { node: row.at });
    return link !== undefined || net.nodeOf.has(name) || row !== undefined;
  }

  isPicked({ kind, curve }) {
    const { net, state: { picked } } = this.live;
    if (kind === "approach") return this.roadOf(picked.link) === curve;
    return kind === "link" ? net.linkOf.get(curve) === picked.link : net.nodeOf.get(curve) === picked.node;
  }

  showCurves(curve) {
    if (!this.isPicked(curve)) return;
    this.curves.attr("hidden", null);
    this.live.state.curves = drawCurves(this.curves, this.live.net, curve);
    this.live.drawMoment();
  }
}
