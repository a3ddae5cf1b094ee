// A client of zanstore. index.d.ts says what each name is.
export { NoAnswer, Refused, absent, exists, since } from "./requests.js";
export { Store } from "./store.js";
export { Userset, newest, place, start, tuple, user } from "./texts.js";
