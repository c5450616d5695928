// The calls of the desk, and what may go wrong with one.

const KEPT = "desk-key";
// POST for their bodies, though they change nothing
const READERS = ["/v1/check", "/v1/lines-after", "/v1/find", "/v1/history-find"];
// How often a call is asked again that the proxy refused as too often: nothing was done then.
const AGAIN = 5;
// The most milliseconds until a reply begins: to a call that reads, and to one that changes.
const LONGEST_READING = 15_000;
const LONGEST_ACTING = 60_000;

// What came in the place of a reply of 200. `number` is the desk's, and 0 where something else
// answered, or nobody.
export class Fault extends Error {
  status = 0;
  reads = false;
  number = 0;
  named = "";
  /** @type {number | undefined} */
  row = undefined;

  constructor(status, body, reads) {
    super(body.name ?? `status ${status}`);
    Object.assign(this, { status, reads, row: body.row });
    Object.assign(this, { number: body.error ?? 0, named: body.name ?? "" });
  }

  // whether the desk is away, and not only of another opinion
  get isAway() {
    return !this.number || this.status === 503;
  }
}

export const key = {
  get: () => sessionStorage.getItem(KEPT),
  set: (text) => sessionStorage.setItem(KEPT, text),
  forget: () => sessionStorage.removeItem(KEPT),
};

// The name by which the proxy knows who asks; "" where it tells none.
export const asker = { name: "" };

// How much that changes something is under way, and how often such a thing began or ended: what was
// read of the queue before its end is too old.
export const changing = { count: 0, turns: 0 };

// Queue IDs are numbered for each customer: what is marked of one is not to be used on the queue of
// another, who logged in at the site of the firm meanwhile.
function nameIs(name) {
  if (name && asker.name && name !== asker.name) location.reload();
  asker.name = name ?? asker.name;
}

const rests = (seconds) => new Promise((done) => setTimeout(done, seconds * 1000));

// A desk that hangs is away, and nobody is to wait for it without a word. (How long the body takes
// is the line's: a long report over a slow one comes all the same.)
async function begun(path, how, longest) {
  const ends = new AbortController();
  const timer = setTimeout(() => ends.abort(), longest);
  try {
    return await fetch(path, { ...how, signal: ends.signal });
  } finally {
    clearTimeout(timer);
  }
}

async function asked(method, path, sent, headers, longest) {
  const how = { method, headers, body: sent, cache: "no-store", redirect: "error" };
  for (let tries = 0; ; tries += 1) {
    const reply = await begun(path, how, longest);
    if (reply.status !== 429 || tries === AGAIN) return reply;
    await rests(Math.min(5, Number(reply.headers.get("Retry-After")) || 1));
  }
}

// A call: what a reply of 200 says. All else is thrown as a Fault.
export async function call(method, path, body, typed) {
  const reads = method === "GET" || READERS.includes(path);
  // (no page of another site can send this field: the proxy takes a cookie only beside it)
  const headers = { "X-Desk-Page": "1" };
  const known = typed ?? key.get();
  if (known) headers["X-Desk-Key"] = known;
  const sent = body === undefined ? undefined : JSON.stringify(body);
  let status = 0;
  let told = {};
  try {
    const longest = reads ? LONGEST_READING : LONGEST_ACTING;
    const reply = await asked(method, path, sent, headers, longest);
    status = reply.status;
    told = await reply.json();
    if (status === 200) nameIs(reply.headers.get("X-Desk-Customer"));
  } catch {
    throw new Fault(status === 200 ? 0 : status, {}, reads);
  }
  if (status === 200) return told;
  throw new Fault(status, Object(told), reads);
}

// The pages of a list, one after the other. `next` makes the call behind an entry.
async function* pages(first, next, member) {
  let page = await first();
  for (;;) {
    yield page[member];
    if (!page.more) return;
    page = await next(page[member].at(-1));
  }
}

// The messages that a pattern is for, behind an ID.
export const found = (wanted, /** @type {string | null} */ after = null) =>
  pages(
    () => call("POST", "/v1/find", { ...wanted, after }),
    (last) => call("POST", "/v1/find", { ...wanted, after: last.id }),
    "messages",
  );

// Some ends of the history, newest first, and before which number it goes on; null at its end.
// `wanted` is a pattern, or null for all.
export async function history(wanted, before) {
  if (wanted) {
    const told = await call("POST", "/v1/history-find", { ...wanted, before });
    return { ends: told.history, next: told.next };
  }
  const path = before === null ? "/v1/history" : `/v1/history-before/${before}`;
  const told = await call("GET", path);
  return { ends: told.history, next: told.more ? told.history.at(-1).number : null };
}

export const notices = () =>
  pages(
    () => call("GET", "/v1/notices"),
    (last) => call("GET", `/v1/notices-after/${last.number}`),
    "notices",
  );

export const lines = () =>
  pages(
    () => call("GET", "/v1/lines"),
    (last) => call("POST", "/v1/lines-after", { class: last.class, pattern: last.pattern }),
    "lines",
  );
