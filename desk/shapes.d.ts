// The shapes that the page's modules pass around, for tsc and for editors: nothing of this is loaded.

/** What is sent to the bank: by `send` of http.js. */
interface BankRequest {
  path: string;
  method?: string;
  badge?: string;
  session?: number | null;
  slip?: number | null;
  release?: number | null;
  /** The text of an object. */
  body?: string;
}

/** What came of it: a reply, or none. */
interface BankReply {
  kind: 'reply' | 'none';
  /** Of none: whether the time was up. */
  isLate?: boolean;
  status?: number;
  type?: string;
  text?: string;
  /** The object that a reply of JSON has. */
  body?: Record<string, any> | null;
  /** The front's time, in milliseconds, or null where it was not sent. */
  at?: number | null;
}

/** What is kept of a request: with slip, name and body if it bears a slip, or else with its text and its end. */
interface JournalRow {
  id?: number;
  badge: string;
  state: string;
  at: number;
  answered?: number;
  name?: string;
  body?: string;
  slip?: number;
  release?: number | null;
  tries?: number;
  text?: string;
  end?: string;
  status?: number;
  reply?: string;
  aside?: {by: string, reason: string, at: number};
  /** What was noted with a count; of a part, of which sum it is, with which total; of an entry its purpose, and the bank's day. */
  noted?: {reason?: string, colleague?: number, sum?: string, total?: number, part?: number, parts?: number,
    purpose?: string, day?: number | null};
  /** Of a line for a sum: the sum; of what is booked of one: the rows of its parts. */
  sum?: Sum;
  parts?: JournalRow[];
  /** A report that is kept with it. */
  paper?: string;
}

/** What a field is made of. */
interface FieldSpec {
  name: string;
  label: string;
  kind: string;
  value?: any;
  hint?: string;
  least?: number;
  most?: number;
  optional?: boolean;
  pattern?: {test(text: string): boolean};
  fault?: string;
  /** Value, label, and of a choice its class and its letter. */
  options?: string[][];
  /** A line that opens to the field. */
  tucked?: string;
}

/** A field: its row of elements, and what was typed, as a value or with what is wrong with it. */
interface DeskField {
  spec: FieldSpec;
  row: HTMLElement;
  input: HTMLInputElement;
  error: HTMLElement;
  read(): {value?: any, fault?: string};
  set(value?: any): void;
}

/** A form: its element, and its fields by their names. */
interface DeskForm {
  element: HTMLFormElement;
  fields: Record<string, DeskField>;
  focus(): void;
}

/** A screen: its address, its letter in the menu, the operations and commands that it asks for, and what makes it for a desk. */
interface DeskScreen {
  id: string;
  key: string;
  asks: string[];
  /** Whether it asks for a drawer before it sends anything, if none is named. */
  needsDrawer?: boolean;
  isWide?: boolean;
  /** Whether its heading is another than its name in the menu. */
  hasTitle?: boolean;
  make(desk: Desk, shell?: any): Promise<{elements: any, focus?: () => void}>;
}

/** The desk of a badge: who works here, in which session, and the ways to ask the bank. */
interface Desk {
  badge: string;
  session: number | null;
  place: {branch: number | null, teller: number | null};
  allowed: Record<string, boolean>;
  [member: string]: any;
}

/** A part of a sum, by its number from 1, and its amount in cents. */
interface Part {
  part: number;
  cents: number;
}

/** An amount that goes in parts, and what has become of it. */
interface Sum {
  id: string;
  name: string;
  /** With the whole amount. */
  body: any;
  /** What is noted with each part, of a sum of which nothing was sent yet. */
  noted?: {purpose?: string, day?: number | null};
  /** How many parts it has. */
  count: number;
  rows: JournalRow[];
  /** The rows of the parts that are booked. */
  done: JournalRow[];
  /** The parts that can be sent. */
  left: Part[];
  doneCents: number;
  leftCents: number;
  isWaiting: boolean;
  isAside: boolean;
  isWhole: boolean;
}
