// The slider over the horizon and the button that plays it in twelve seconds, as both pages have them.

const LASTS = 12000;

export class Player {
  // `slots()` is where the slider ends; `goTo(k, byHand)` is called for each boundary, and told whether a user went
  // there.
  constructor({ time, button, clock }, { slots, clockOf, goTo }) {
    Object.assign(this, { time, button, clock, slots, clockOf, goTo, playing: null });
    time.addEventListener("input", () => { this.stop(); this.show(this.here(), true); });
    button.addEventListener("click", () => this.play());
  }

  here() {
    return Number(this.time.value);
  }

  show(k, byHand = false) {
    const boundary = Math.max(0, Math.min(this.slots(), k)), { time, clock } = this;
    time.max = this.slots();
    time.value = boundary;
    clock.textContent = this.clockOf(boundary);
    time.setAttribute("aria-valuetext", clock.textContent);
    this.goTo(boundary, byHand);
  }

  named(sign, name) {
    this.button.textContent = sign;
    this.button.setAttribute("aria-label", name);
  }

  stop() {
    if (this.playing === null) return;
    this.playing.stop();
    this.playing = null;
    this.named("▶", "play");
  }

  play() {
    if (this.playing !== null) {
      this.stop();
      return;
    }
    if (this.here() >= this.slots()) this.show(0);
    this.named("❚❚", "stop");
    const began = this.here(), pace = this.slots() / LASTS;
    this.playing = d3.timer(passed => {
      this.show(began + Math.round(passed * pace), true);
      if (this.here() >= this.slots()) this.stop();
    });
  }
}
