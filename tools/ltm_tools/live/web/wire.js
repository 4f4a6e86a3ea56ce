// The connection to the server: messages are objects, frames rows of numbers. It connects again where it is lost.

const AGAIN = 1000, FULL_AGAIN = 5000, REFUSED = 1008, FULL = 1013;

// What this window is called, also after it was loaded again, so that its changes stay its own.
export function windowName() {
  const name = sessionStorage.getItem("window") || Array.from(crypto.getRandomValues(new Uint32Array(4))).join("-");
  sessionStorage.setItem("window", name);
  return name;
}

export class Wire {
  // `begun()` gives what is told first; `hear(told)` and `show(numbers)` get what comes, `lost(why)` is told of an end.
  constructor({ begun, hear, show, lost }) {
    Object.assign(this, { begun, hear, show, lost, socket: null });
  }

  connect() {
    this.socket = new WebSocket(`ws://${location.host}/ws`);
    this.socket.binaryType = "arraybuffer";
    this.socket.onopen = () => this.send(this.begun());
    this.socket.onmessage = ({ data }) => typeof data === "string" ? this.hear(JSON.parse(data))
      : this.show(new Float64Array(data));
    this.socket.onclose = ({ code, reason }) => {
      const again = code !== REFUSED;
      this.lost({ why: reason || "the server has ended", again, refused: code === REFUSED });
      if (again) setTimeout(() => this.connect(), code === FULL ? FULL_AGAIN : AGAIN);
    };
  }

  get open() {
    return this.socket !== null && this.socket.readyState === WebSocket.OPEN;
  }

  send(told) {
    if (this.open) this.socket.send(JSON.stringify(told));
    return this.open;
  }
}

// The frame that a row of numbers is: the revision, the boundary, and now and in the base the queue and the vehicles of
// each link and the vehicles that wait at each node; and what has left each link in the last slots, where it was asked.
export function frameOf(words, links, nodes) {
  let at = 2;
  const part = size => words.subarray(at, at += size);
  const of = () => ({ queue: part(links), standing: part(links), waiting: part(nodes) });
  const told = { revision: words[0], k: words[1], now: of(), base: of() };
  if (at < words.length) [told.now.passed, told.base.passed] = [part(links), part(links)];
  return told;
}

// Calls once the browser has painted: behind the next frame.
export function behindPaint(then) {
  requestAnimationFrame(() => {
    const channel = new MessageChannel();
    channel.port1.onmessage = then;
    channel.port2.postMessage(0);
  });
}
