// The link to the page's server: messages over a WebSocket, and files by POST.

const GONE = { name: "Ended", words: "the page's server is gone" };

export class Link {
  constructor(on) {
    Object.assign(this, { on, asked: 0, waiting: new Map() });
    this.open();
  }

  open() {
    const place = new URL("socket", location.href);
    place.protocol = "ws:";
    this.socket = new WebSocket(place);
    this.socket.onopen = () => this.on.open();
    this.socket.onmessage = (event) => this.take(JSON.parse(event.data));
    this.socket.onclose = () => {
      for (const done of this.waiting.values()) done({ refused: GONE });
      this.waiting.clear();
      this.on.closed();
      setTimeout(() => this.open(), 1000);
    };
  }

  take(message) {
    if (message.type === "reply") {
      this.waiting.get(message.ask)?.(message);
      this.waiting.delete(message.ask);
    } else {
      this.on[message.type]?.(message);
    }
  }

  // Sends a message, and gives its reply.
  ask(what, more = {}) {
    if (this.socket.readyState !== WebSocket.OPEN) return Promise.resolve({ refused: GONE });
    const ask = ++this.asked;
    this.socket.send(JSON.stringify({ ask, do: what, ...more }));
    return new Promise((done) => this.waiting.set(ask, done));
  }

  // Sends files that are taken together.
  async files(files, fit) {
    const body = new FormData();
    body.append("fit", fit);
    for (const it of files) body.append("file", it, it.name);
    try {
      const answer = await fetch("files", { method: "POST", body });
      return answer.ok ? await answer.json() : { refused: { name: "Trouble", words: await answer.text() } };
    } catch {
      return { refused: GONE };
    }
  }
}
