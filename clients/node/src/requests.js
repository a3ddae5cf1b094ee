// Requests and answers, and what may be sent again (docs/API.md).

export const COLLECTED = 8, PRECONDITION = 9, FULL = 15;
const BUSY = 10, ABORTED = 11, UNSURE = 12, NO_MEMORY = 14;
// Nothing was done, and the same may be sent again: a tuple was held, a node was opened again, memory or room was short.
const AGAIN = [BUSY, ABORTED, NO_MEMORY, FULL];
// The members of an answer to each request.
const ANSWERS = {
  write: { zookie: "string" },
  read: { sets: "array", zookie: "string" },
  check: { member: "boolean", zookie: "string" },
  watch: { events: "array", heartbeat: "string" },
};

export class Refused extends Error {
  constructor(number, name) {
    super(`${number} ${name}`);
    Object.assign(this, { name: "Refused", number, kind: name });
  }
}

export class NoAnswer extends Error {
  name = "NoAnswer";
}

export const since = (tuple, token) => ({ tuple, since: token });
export const exists = (tuple) => ({ tuple, want: "exists" });
export const absent = (tuple) => ({ tuple, want: "absent" });

// Whether it may be asked again. `mayRepeat`: also where the first one may have been done.
export function helps(fault, op, mayRepeat) {
  if (!(fault instanceof Refused)) return mayRepeat && !(fault instanceof NoAnswer);
  // A check that is `Full` has met too many usersets, and would meet them again.
  return (AGAIN.includes(fault.number) && !(fault.number === FULL && op === "check")) || (mayRepeat && fault.number === UNSURE);
}

// The object of a line, where it is an answer to such a request.
function answerOf(line, op) {
  const kind = (value) => (Array.isArray(value) ? "array" : typeof value);
  try {
    const answer = JSON.parse(line);
    const members = "error" in answer ? { error: "number", name: "string" } : ANSWERS[op];
    if (Object.entries(members).every(([name, wanted]) => kind(answer[name]) === wanted)) return answer;
  } catch {} // no JSON, or no object
  throw new NoAnswer(`not an answer: ${JSON.stringify(line.slice(0, 80))}`);
}

// The answers to requests, as their text comes.
export class Answers {
  constructor(requests) {
    this.asked = requests.map((request) => request.op);
    this.found = [];
    this.rest = "";
  }

  // Takes what came next. Whether all answers have come, and nothing after them.
  take(some) {
    this.rest += some;
    if (some.endsWith("\n")) {
      const lines = this.rest.slice(0, -1).split("\n");
      this.rest = "";
      if (this.found.length + lines.length > this.asked.length) throw new NoAnswer("more lines than answers");
      for (const line of lines) this.found.push(answerOf(line, this.asked[this.found.length]));
    }
    return this.found.length === this.asked.length;
  }
}
