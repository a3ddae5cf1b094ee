// The texts of tuples and tokens, made of their parts and taken apart.

// A namespace or relation, and the id of an object or user: printable ASCII without `#`, `@`, `:` and `+`.
const NAME = "[a-z0-9_]{1,64}", ID = "(?:(?![#@:+])[!-~]){1,128}";
const OBJECT = `${NAME}:${ID}`;
const TUPLE = `${OBJECT}#${NAME}@(?:${ID}|${OBJECT}#${NAME})`;
const BEGIN = Buffer.from([1, 0]); // of a token: its version, and no flags

function formed(form, what, text) {
  if (typeof text !== "string" || !new RegExp(`^${form}$`).test(text)) throw new TypeError(`not ${what}: ${JSON.stringify(text)}`);
  return text;
}

export function user(id) {
  return formed(ID, "the id of a user", id);
}

export class Userset {
  constructor(object, relation) {
    this.text = `${formed(OBJECT, "an object", object)}#${formed(NAME, "a relation", relation)}`;
  }

  toString() {
    return this.text;
  }
}

export function tuple(object, relation, who) {
  return `${new Userset(object, relation)}@${who instanceof Userset ? who : user(who)}`;
}

// The userset of a tuple's object and relation, and its user.
export function sides(text) {
  return formed(TUPLE, "a tuple", text).split("@");
}

// The bytes of a token's store and of its place.
function parts(token) {
  const bytes = Buffer.from(token, "base64");
  if (bytes.length !== 18 || bytes.toString("base64") !== token || !bytes.subarray(0, 2).equals(BEGIN)) throw new TypeError(`not a token: ${token}`);
  return [bytes.subarray(2, 10), bytes.subarray(10)];
}

export function place(token) {
  return Number(parts(token)[1].readBigUInt64BE());
}

export function newest(one, other) {
  const [[store, first], [storeOfOther, second]] = [parts(one), parts(other)];
  if (!store.equals(storeOfOther)) throw new TypeError(`tokens of two stores: ${one}, ${other}`);
  return first.compare(second) < 0 ? other : one;
}

export function start(store) {
  const bytes = Buffer.concat([BEGIN, Buffer.alloc(16)]);
  bytes.writeBigUInt64BE(BigInt(store), 2);
  return bytes.toString("base64");
}
