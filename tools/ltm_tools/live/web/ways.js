// The fastest way through a network without traffic.

// Of each node the links that begin there.
function linksOut(net) {
  const outs = net.nodes.map(() => []);
  net.links.forEach(({ tail }, link) => outs[tail].push(link));
  return outs;
}

// Of each node the last link of the fastest way there from a node; none of the node itself.
function lastLinks(net, start) {
  const outs = linksOut(net), best = new Map([[start, 0]]), last = new Map();
  for (let front = new Set([start]); front.size;) {
    const next = new Set();
    for (const node of front) {
      for (const link of outs[node]) {
        const { head, free } = net.links[link], time = best.get(node) + free;
        if (best.has(head) && best.get(head) <= time) continue;
        best.set(head, time);
        last.set(head, link);
        next.add(head);
      }
    }
    front = next;
  }
  return last;
}

// The links behind a link up to another and with it; null where no way leads there.
export function wayTo(net, from, to) {
  const start = net.links[from].head, last = lastLinks(net, start), way = [to];
  while (net.links[way[0]].tail !== start) {
    const before = last.get(net.links[way[0]].tail);
    if (before === undefined) return null;
    way.unshift(before);
  }
  return way;
}
