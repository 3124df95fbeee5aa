"use strict";

// A server that runs, and the messages between it and the editor: a header with the length, and a body of JSON.

const { spawn } = require("child_process");

const CUT = "\r\n\r\n";
const MOST_WAIT = 3000; // milliseconds that a server has to end

class Connection {
  /** Starts a server. `told` has what is done with its messages, by their methods; `ended` is called when it has ended. */
  constructor(command, words, told, ended) {
    this.told = told;
    this.waiting = new Map();
    this.number = 0;
    this.left = Buffer.alloc(0);
    this.process = spawn(command, words, { stdio: ["pipe", "pipe", "inherit"] });
    this.over = new Promise((resolve) => {
      this.process.on("error", (error) => resolve(error.message));
      this.process.on("exit", () => resolve(""));
    });
    this.over.then((why) => {
      this.failAll(why || "the server has ended");
      ended(why);
    });
    this.process.stdin.on("error", () => {});
    this.process.stdout.on("data", (data) => this.take(data));
  }

  /** Takes bytes of the server, and each message that is whole. */
  take(data) {
    this.left = Buffer.concat([this.left, data]);
    for (;;) {
      const cut = this.left.indexOf(CUT);
      const length = cut < 0 ? null : /Content-Length: (\d+)/i.exec(this.left.toString("ascii", 0, cut));
      const start = cut + CUT.length;
      if (!length || this.left.length < start + Number(length[1])) return;
      const end = start + Number(length[1]);
      const message = JSON.parse(this.left.toString("utf8", start, end));
      this.left = this.left.subarray(end);
      this.takeMessage(message);
    }
  }

  takeMessage({ id, method, params, result, error }) {
    if (method !== undefined) {
      if (this.told[method]) this.told[method](params);
      return;
    }
    const waiting = this.waiting.get(id);
    this.waiting.delete(id);
    if (!waiting) return;
    if (error) waiting.reject(Object.assign(new Error(error.message), { code: error.code }));
    else waiting.resolve(result);
  }

  write(message) {
    const body = Buffer.from(JSON.stringify({ jsonrpc: "2.0", ...message }));
    if (this.process.stdin.writable) this.process.stdin.write(Buffer.concat([Buffer.from(`Content-Length: ${body.length}${CUT}`), body]));
  }

  notify(method, params) {
    this.write({ method, params });
  }

  /** Sends a request, and returns its result; a token of the editor cancels it. */
  request(method, params, token) {
    this.number += 1;
    const id = this.number;
    const answer = new Promise((resolve, reject) => this.waiting.set(id, { resolve, reject }));
    this.write({ id, method, params });
    if (token) token.onCancellationRequested(() => this.notify("$/cancelRequest", { id }));
    return answer;
  }

  failAll(text) {
    for (const { reject } of this.waiting.values()) reject(new Error(text));
    this.waiting.clear();
  }

  /** Ends the server as the protocol has it; one that doesn't end is killed. */
  async end() {
    const late = setTimeout(() => this.process.kill(), MOST_WAIT);
    try {
      await this.request("shutdown", null);
    } catch (error) {
      // It has ended already.
    }
    this.notify("exit", null);
    await this.over;
    clearTimeout(late);
  }
}

module.exports = { Connection };
