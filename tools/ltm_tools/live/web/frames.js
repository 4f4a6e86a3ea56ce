// The frames that the server sends: one question is on its way at a time, and the last that was asked for is the next.
import { behindPaint, frameOf } from "./wire.js";

export class Frames {
  // `live` has `state`, `wire`, `map` and `times`.
  constructor(live) {
    Object.assign(this, { live, asked: null, flying: false });
  }

  see(k) {
    this.asked = k;
    if (!this.flying) this.flying = this.ask();
  }

  ask() {
    const { net, shown } = this.live.state, k = this.asked;
    return this.live.wire.send(shown === "flow" ? { see: k, since: Math.max(0, k - net.lastSlots(k)) } : { see: k });
  }

  // Whether the frame that is there is the one that was asked for.
  isThere() {
    const { frame, shown } = this.live.state;
    return frame.k === this.asked && (shown !== "flow" || frame.now.passed !== undefined);
  }

  // After the connection was lost no answer is to be waited for.
  lost() {
    this.flying = false;
  }

  show(words) {
    const { live } = this, { state, times } = live, { links, nodes } = state.net;
    state.frame = frameOf(words, links.length, nodes.length);
    this.flying = !this.isThere() && this.ask();
    live.draw();
    const one = times[times.length - 1];
    if (!one || one.drawn !== undefined || words[0] <= one.since) return;
    one.drawn = performance.now();
    behindPaint(() => { one.painted = performance.now(); });
  }

  // Asks again where what is shown is of an earlier list.
  renew(revision, k) {
    const { frame } = this.live.state;
    if (frame !== null && frame.revision !== revision && !this.flying) this.see(k);
  }
}
