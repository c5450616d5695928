// The address of what is shown: the view, and of the queue its filters, its order and the message
// that is open: `#queue?state=hold&message=0000000001`. A reload, a bookmark and Back come to it.

const parts = () => location.hash.slice(1).split("?");

export const viewOfAddress = () => parts()[0];

// What the address says beside the view.
export const wordsOfAddress = () => new URLSearchParams(parts()[1] ?? "");

function addressOf(view, words) {
  const some = Object.entries(words).filter(([, it]) => it);
  return some.length ? `#${view}?${new URLSearchParams(some)}` : `#${view}`;
}

// Has the address say this. Back then leads to the one of before if this is a step of somebody's.
export function goTo(view, words, isStep) {
  const address = addressOf(view, words);
  if (address === location.hash) return;
  if (isStep) history.pushState(null, "", address);
  else history.replaceState(null, "", address);
}
