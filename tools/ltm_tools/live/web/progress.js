// How far the search for other routes is, told while it goes on.

const TICK = 200;

export class Progress {
  // `stop` is the button that ends the search; `pending` is the place below the list that says how far it is.
  constructor(stop, pending) {
    Object.assign(this, { stop, pending, at: null, timer: null });
  }

  show(told) {
    this.end();
    const began = performance.now() - 1000 * told.seconds;
    const seconds = () => ((performance.now() - began) / 1000).toFixed(1);
    const round = `${told.seeking}: seeking other routes, round ${told.rounds} of ${told.most}`;
    const tick = () => { this.pending.textContent = `${round}, ${seconds()} s`; };
    this.at = told.at;
    this.timer = setInterval(tick, TICK);
    this.stop.hidden = this.pending.hidden = false;
    tick();
  }

  // Ends what is told, of one change where it is named.
  end(at = this.at) {
    if (this.timer === null || at !== this.at) return;
    clearInterval(this.timer);
    this.timer = null;
    this.stop.hidden = this.pending.hidden = true;
  }
}
