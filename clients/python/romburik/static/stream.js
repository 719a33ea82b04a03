"use strict";
// One stream of events for all tabs: a browser holds few connections to one host, and each stream is
// one. It runs in a worker that the tabs share, or in the tab where the browser has none such.

const KINDS = ["listing", "look", "trouble"];
const AGAIN = 3000; // milliseconds after which it is tried again

function streamOf(panels, tell) {
  const source = new EventSource("events?panels=" + encodeURIComponent(JSON.stringify(panels)));
  for (const kind of KINDS) source.addEventListener(kind, (event) => tell({ kind, data: event.data }));
  source.onopen = () => tell({ kind: "open" });
  source.onerror = () => tell({ kind: source.readyState === EventSource.CLOSED ? "closed" : "away" });
  return source;
}

class Hub {
  constructor() {
    this.panels = new Map(); // of each tab
    this.source = null;
    this.waiting = null;
  }

  want(tab, panels) {
    this.panels.set(tab, panels);
    clearTimeout(this.waiting);
    this.waiting = setTimeout(() => this.begin(), 30);
  }

  leave(tab) {
    this.panels.delete(tab);
    if (!this.panels.size && this.source) {
      this.source.close();
      this.source = null;
    }
  }

  begin() {
    if (this.source) this.source.close();
    if (!this.panels.size) return;
    const distinct = new Map([...this.panels.values()].flat().map((it) => [it.name, it]));
    this.source = streamOf([...distinct.values()], (told) => {
      for (const tab of this.panels.keys()) tab(told);
      if (told.kind === "closed") this.waiting = setTimeout(() => this.begin(), AGAIN);
    });
  }
}

if (typeof window === "undefined") {
  const hub = new Hub();
  self.onconnect = ({ ports: [port] }) => {
    const tab = (told) => port.postMessage(told);
    port.onmessage = ({ data }) => (data === null ? hub.leave(tab) : hub.want(tab, data));
  };
}

// Gives a function by which a tab says which panels it has.
function subscribed(tell) {
  if (typeof SharedWorker === "undefined") {
    const hub = new Hub();
    return (panels) => hub.want(tell, panels);
  }
  const { port } = new SharedWorker("stream.js");
  port.onmessage = ({ data }) => tell(data);
  addEventListener("pagehide", () => port.postMessage(null));
  return (panels) => port.postMessage(panels);
}
