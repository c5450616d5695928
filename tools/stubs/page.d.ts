// What checks/types takes for granted of the page: the records that the modules of web/ hand to each
// other, and what browsers of 2024 have and this tsc does not know.

interface Recipient { address: string; status: string; text: string }
type State = "waiting" | "deferred" | "hold";

// A message of the queue, as the report tells it.
interface Message {
  id: string; state: State; size: number; arrival: number; sender: string; reason: string;
  pending: Recipient[]; all: string; domains: string[];
}

// A recipient that left the queue.
interface End {
  at: number; id: string; number: number; recipient: string; result: string; sender: string;
  status: string; text: string;
}

// Messages that have a reason, a domain or a sender in common.
interface Group { of: string; kind: string; name: string; messages: Message[]; words?: string }

interface Usage {
  accepted: number; bytes: number; deleted: number; delivered: number; expired: number;
  failed: number; lines: number; messages: number; pending: number;
  [name: string]: number;
}
interface Limits {
  bytes: number; delay: number; history: number; lines: number; messages: number; notices: number;
}
interface Pattern { class: string; pattern: string }
interface Rule extends Pattern { action: string }

interface Element { checkVisibility(): boolean }

// What one view asks of the others.
interface DocumentEventMap { turn: CustomEvent; notices: CustomEvent; renamed: CustomEvent }
