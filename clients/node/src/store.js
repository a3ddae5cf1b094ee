// A session with a server: `Store`.
import { on } from "node:events";
import net from "node:net";
import { setImmediate as turn, setTimeout as pause } from "node:timers/promises";
import { Answers, COLLECTED, FULL, PRECONDITION, Refused, helps, since } from "./requests.js";
import { sides } from "./texts.js";

// How many lines are sent before their answers are read, so few that those always fit on the way; how many tuplesets a read has, and usersets a check.
const AHEAD = 64, SETS = 16, USERSETS = 4096;

export class Store {
  constructor(host, port, { tries = 8, timeout = 30000 } = {}) {
    Object.assign(this, { host, port, tries, timeout, socket: null, before: Promise.resolve() });
  }

  connect() {
    const socket = net.connect({ host: this.host, port: this.port, noDelay: true }).setEncoding("utf8");
    socket.on("timeout", () => socket.destroy(new Error("no answer in time")));
    // While nobody asks, anything that comes makes the connection useless.
    for (const event of ["data", "end", "error", "close"]) socket.on(event, () => this.socket === socket && this.drop());
    return socket;
  }

  drop() {
    this.socket?.destroy();
    this.socket = null;
  }

  // Does the work after all that was asked before.
  behind(work) {
    const done = this.before.then(work);
    this.before = done.catch(() => {});
    return done;
  }

  close() {
    return this.behind(() => this.drop());
  }

  // The answers to requests that are sent at once. After an error nobody knows whether a write stands.
  ask(requests) {
    return this.behind(() => this.exchange(requests));
  }

  async exchange(requests) {
    await turn();
    await turn(); // between the two, an end that has come meanwhile is told
    const socket = this.socket ?? this.connect();
    const answers = new Answers(requests);
    let isWhole = false;
    this.socket = null; // put back only after whole answers
    try {
      socket.setTimeout(this.timeout);
      socket.write(requests.map((request) => JSON.stringify(request) + "\n").join(""));
      for await (const [some] of on(socket, "data", { close: ["end", "close"] })) {
        if ((isWhole = answers.take(some))) break;
      }
      if (!isWhole) throw new Error("the connection ended before an answer");
    } catch (fault) {
      socket.destroy();
      throw fault;
    }
    socket.setTimeout(0);
    if (socket.readable) this.socket = socket;
    return answers.found;
  }

  // Asks, and again after a pause where that helps. `mayRepeat`: also where the first one may have been done.
  async patiently(requests, mayRepeat = true) {
    const answers = new Map();
    for (let number = 1; ; number++) {
      const waiting = requests.filter((request) => !answers.has(request));
      let last = null;
      const wait = (fault, request) => {
        if (!helps(fault, request.op, mayRepeat) || number === this.tries) throw fault;
        last = fault;
      };
      const came = await this.ask(waiting).catch((fault) => wait(fault, waiting[0]) ?? []);
      came.forEach((answer, index) => {
        if ("error" in answer) wait(new Refused(answer.error, answer.name), waiting[index]);
        else answers.set(waiting[index], answer);
      });
      if (last === null) return requests.map((request) => answers.get(request));
      await pause(Math.min(2000, 25 * 2 ** number));
    }
  }

  async one(request, mayRepeat = true) {
    return (await this.patiently([request], mayRepeat))[0];
  }

  // Does work that reads at one place, and anew if the horizon passes that meanwhile.
  async atOnePlace(fresh, work) {
    for (let number = 1; ; number++) {
      try {
        return await work();
      } catch (fault) {
        if (fault.number !== COLLECTED || "exact" in fresh || number === this.tries) throw fault;
      }
    }
  }

  // Only with a condition `since` on a tuple that it touches a write is sent again after `12 Unsure` or a lost connection: it then stands once at most, and
  // `9` may mean that it stands.
  async write({ touch = [], remove = [], conditions = [] }) {
    const changes = [...touch.map((tuple) => ({ op: "touch", tuple })), ...remove.map((tuple) => ({ op: "delete", tuple }))];
    const once = conditions.some((one) => "since" in one && touch.includes(one.tuple));
    return (await this.one({ op: "write", changes, conditions }, once)).zookie;
  }

  check(tuple, fresh = {}) {
    return this.one({ op: "check", tuple, ...fresh });
  }

  async checkMany(tuples, fresh = {}) {
    if (tuples.length === 0) throw new TypeError("no tuple to check");
    return this.atOnePlace(fresh, async () => {
      const { member, zookie } = await this.check(tuples[0], fresh);
      const members = [member];
      while (members.length < tuples.length) {
        const some = tuples.slice(members.length, members.length + AHEAD);
        const answers = await this.patiently(some.map((tuple) => ({ op: "check", tuple, exact: zookie })));
        members.push(...answers.map((answer) => answer.member));
      }
      return { members, zookie };
    });
  }

  read(sets, fresh = {}) {
    return this.one({ op: "read", sets, ...fresh });
  }

  async why(tuple, fresh = {}) {
    const [first, user] = sides(tuple);
    return this.atOnePlace(fresh, async () => {
      // Each userset that was met, with the way to it, which is shortest as the nearest are looked into first.
      const ways = new Map([[first, []]]), met = [first];
      for (let walked = 0, place = fresh; ; ) {
        if (met.length > USERSETS) throw new Refused(FULL, "Full");
        const some = met.slice(walked, walked + SETS);
        walked += some.length;
        const { sets, zookie } = await this.read(some, place);
        place = { exact: zookie };
        for (const row of sets.flat()) {
          const [left, right] = sides(row);
          const path = [...ways.get(left), row];
          if (right === user) return { path, walked: met.slice(0, walked), zookie };
          if (!right.includes(":") || ways.has(right)) continue;
          ways.set(right, path);
          met.push(right);
        }
        if (walked === met.length) return { path: null, walked: met, zookie };
      }
    });
  }

  watch(token, namespaces, rest = 1000) {
    return new Watch(this, token, namespaces, rest);
  }

  async edit(object, lock, change) {
    for (;;) {
      const { sets, zookie } = await this.read([object]);
      const { touch = [], remove = [] } = await change(sets[0]);
      try {
        return await this.write({ touch: [...touch, lock], remove, conditions: [since(lock, zookie)] });
      } catch (fault) {
        if (fault.number !== PRECONDITION) throw fault;
      }
    }
  }
}

// After an error `next` goes on where the last answer ended, as a generator would not.
class Watch {
  constructor(store, token, namespaces, rest) {
    Object.assign(this, { store, token, namespaces, rest, isAtEnd: false });
  }

  [Symbol.asyncIterator]() {
    return this;
  }

  async next() {
    if (this.isAtEnd) await pause(this.rest);
    const value = await this.store.one({ op: "watch", from: this.token, limit: 256, namespaces: this.namespaces });
    this.token = value.heartbeat;
    this.isAtEnd = value.events.length === 0;
    return { done: false, value };
  }
}
