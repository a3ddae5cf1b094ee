/** The text of a tuple, such as `doc:plan#viewer@ann`. */
export type Tuple = string;
/** A zookie: the place of a store. */
export type Token = string;
/** Which place answers: the latest, one at least as late as a token, or exactly that of a token. */
export type Freshness = { at_least?: Token; exact?: never } | { exact: Token; at_least?: never };
export type Condition = { tuple: Tuple; since: Token } | { tuple: Tuple; want: "exists" | "absent" };
export interface Changes {
  touch?: Tuple[];
  remove?: Tuple[];
}
export interface Checked {
  member: boolean;
  zookie: Token;
}
export interface CheckedMany {
  /** Whether each is so, in their order. */
  members: boolean[];
  zookie: Token;
}
export interface Read {
  sets: Tuple[][];
  zookie: Token;
}
export interface Why {
  /** The tuples from the object to the user, or null. */
  path: Tuple[] | null;
  /** Each userset that was looked into. */
  walked: string[];
  zookie: Token;
}
export interface Event {
  place: number;
  change: "touch" | "delete";
  tuple: Tuple;
}
export interface Watched {
  events: Event[];
  /** The token to go on from once the events are used. */
  heartbeat: Token;
}

/** The server refused a request. After any number but 12 a write was not made. */
export class Refused extends Error {
  readonly number: number;
  readonly kind: string;
}
/** The server sent a line that is no answer. */
export class NoAnswer extends Error {}

/** The id of one user, as it was given. Any other text is a `TypeError`, a userset too. */
export function user(id: string): string;
/** All users that have the relation to the object. */
export class Userset {
  constructor(object: string, relation: string);
  toString(): string;
}
/** The text of a tuple. `who` is the id of a user, whatever it contains, unless it is a `Userset`. */
export function tuple(object: string, relation: string, who: string | Userset): Tuple;

/** No write after the token's place has changed the tuple. */
export function since(tuple: Tuple, token: Token): Condition;
export function exists(tuple: Tuple): Condition;
export function absent(tuple: Tuple): Condition;

/** The place of a token: the number of a write in the log, exact up to 2^53. */
export function place(token: Token): number;
/** The token of the later place, of two of one store. */
export function newest(one: Token, other: Token): Token;
/** The token of place 0 of a store, which is before its first write. */
export function start(store: number | bigint): Token;

/**
 * A session with a server, whose connection is made anew where it ended. It may be asked before it has answered: requests then wait for one another.
 * It is of one thread: a worker makes its own. `timeout` is in milliseconds.
 */
export class Store {
  constructor(host: string, port: number, options?: { tries?: number; timeout?: number });
  /** Ends the connection after what was asked before. A later request makes another. */
  close(): Promise<void>;
  /**
   * The token of the write. Only with a condition `since` on a tuple that it touches it is sent again after `12 Unsure` or a lost connection: it then
   * stands once at most, and `9` may mean that it stands.
   */
  write(write: Changes & { conditions?: Condition[] }): Promise<Token>;
  /** Whether the user of the tuple is in the userset of its object and relation: ask `member`, as the object itself is always true. */
  check(tuple: Tuple, fresh?: Freshness): Promise<Checked>;
  /** The checks of one or more tuples at one place: that of the first, which the others name, and are sent without a wait between them. */
  checkMany(tuples: Tuple[], fresh?: Freshness): Promise<CheckedMany>;
  /** The stored tuples of 1 to 16 tuplesets. */
  read(sets: string[], fresh?: Freshness): Promise<Read>;
  /** What a check goes by: a shortest way of stored tuples, read at one place. Past 4,096 usersets it is refused, as a check is. */
  why(tuple: Tuple, fresh?: Freshness): Promise<Why>;
  /** The events after the token, for ever, each once and in their order. An answer without events is a pause of `rest` milliseconds. */
  watch(token: Token, namespaces: string[], rest?: number): Watch;
  /** Reads a list, lets `change` choose, and writes that if nobody else has edited the list since; else again. */
  edit(object: string, lock: Tuple, change: (rows: Tuple[]) => Changes | Promise<Changes>): Promise<Token>;
}
/** After an error, such as a server that is gone for longer than the tries of the store, `next` goes on where the last answer ended. */
export interface Watch extends AsyncIterableIterator<Watched> {
  readonly token: Token;
}
