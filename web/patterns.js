// Patterns of rules, as access(5) has them: for whom one is, and what was likely meant by one that
// is for nobody.

import { domainOf } from "./report.js";

// What stands behind a + in a name is an extension of it.
const EXTENSION = /\+[^@]*(?=@)/;

// Whether a pattern is for an address, as the desk looks it up.
export function fits(/** @type {string} */ pattern, /** @type {string} */ address) {
  const [key, whole] = [pattern.toLowerCase(), address.toLowerCase()];
  if (!whole) return key === "<>";
  const domain = domainOf(whole);
  const addresses = [whole, whole.replace(EXTENSION, "")];
  const names = addresses.map((it) => it.slice(0, it.length - domain.length));
  return [...addresses, ...names, domain].includes(key)
    || (key.startsWith(".") && domain.endsWith(key));
}

// The messages that a pattern is for.
export function isFor(/** @type {Pattern} */ { class: side, pattern }) {
  return (/** @type {Message} */ it) => (side === "sender"
    ? fits(pattern, it.sender) : it.pending.some((one) => fits(pattern, one.address)));
}

// A pattern that would match nobody, though the desk takes it, and what was likely meant.
export function meant(/** @type {string} */ pattern) {
  if (/^<.+@.+>$/.test(pattern)) return pattern.slice(1, -1);
  const whole = /^(?:\*|%|\.\*|)@(.+)$/.exec(pattern);
  if (whole) return whole[1];
  const below = /^\*\.(.+)$/.exec(pattern);
  if (below) return `.${below[1]}`;
  if (/^[\w.+-]+@\*$/.test(pattern)) return pattern.slice(0, -1);
  return null;
}
