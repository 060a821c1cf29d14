// The page's workers: each holds the engines, and answers the page's messages. One shows replays; the other reads their reports meanwhile. A
// replay begins with the trace's first events, and goes on from where it stands; on the way back it begins anew, and keeps the last pictures
// before the event that was asked for.
"use strict";

const KEPT_PICTURES = 64;
const [NEWLINE, SPACE, DIGIT, NINE, SMALL_D] = [10, 32, 48, 57, 100];
const MOST_TOLD = 200;
const FIRST_LINES = 4096; // with which a replay begins
let engines = null;
let taken = null;
let replay = null;
const held = new Map();

/** The line that begins at a place of a text in bytes, without its newline. */
function lineAt(bytes, begin) {
  const end = bytes.indexOf(NEWLINE, begin);
  return asText(bytes.subarray(begin, end < 0 ? bytes.length : end));
}

/** A trace in bytes, and where its lines begin. A line is decoded when it is asked for. */
class Trace {
  constructor(bytes) {
    const begins = bytes.length ? [0] : [];
    for (let at = 1; at < bytes.length; at++) if (bytes[at - 1] === NEWLINE) begins.push(at);
    Object.assign(this, { bytes, begins, length: begins.length });
  }

  at(i) {
    return lineAt(this.bytes, this.begins[i]);
  }

  /** The first lines, and how many they are: all of a short trace. */
  first() {
    if (this.length <= FIRST_LINES) return this;
    return { bytes: this.bytes.subarray(0, this.begins[FIRST_LINES]), length: FIRST_LINES };
  }
}

/** The report of a trace, or of the first events of one, in bytes: where the line of each event begins (-1 if it has none) and the totals, and
 * the events with a fault or a refusal. */
function reportOf(line, options, { bytes: trace, length }) {
  const { status, bytes, ended } = engines.answer("replay", options, trace, line);
  if (status) throw new Error(asText(bytes) || ended);
  const places = new Int32Array(length + 1).fill(-1);
  const faults = [];
  let at = 0;
  // an event's line begins with its number, and the totals after them with words
  while (at < bytes.length && bytes[at] <= NINE) {
    let k = 0;
    for (; bytes[at] !== SPACE; at++) k = 10 * k + bytes[at] - DIGIT;
    places[k] = at + 1;
    if (bytes[at + 1] !== SMALL_D) faults.push(k);
    at = bytes.indexOf(NEWLINE, at) + 1;
  }
  return { bytes, places, faults, events: length, totals: at };
}

const reported = ({ bytes, places }, k) => (places[k] < 0 ? undefined : lineAt(bytes, places[k]));

/** What the page shows of a report: all faults by their events, the first of them in words, and the totals. */
function toldOf(report) {
  const told = report.faults.slice(0, MOST_TOLD).map((k) => [k, reported(report, k)]);
  return { faults: report.faults, told, totals: asText(report.bytes.subarray(report.totals)).split("\n").filter(Boolean) };
}

/** A replay with its trace, and who uses its slots. */
class Replay {
  constructor({ line, options }) {
    Object.assign(this, { line, options, trace: taken, users: new Users(), kept: new Map() });
    this.begin(taken.first());
    this.report = reportOf(line, options, taken.first());
  }

  /** Begins anew with so much of the trace. */
  begin({ bytes, length }) {
    this.steps?.free();
    this.steps = null;
    this.steps = this.users.steps = engines.begin(this.line, bytes, this.options);
    this.reach = length;
  }

  /** Performs the next event, and notes it the first time. */
  go() {
    if (this.steps.done < this.users.events) this.steps.go();
    else this.users.go(eventOf(this.trace.at(this.steps.done)));
  }

  /** Goes to event k, on the way to the last one, by way of a new beginning where it lies behind. */
  goTo(k, last = k) {
    if (k < this.steps.done || last > this.reach) this.begin(last <= FIRST_LINES ? this.trace.first() : this.trace);
    while (this.steps.done < k) this.go();
  }

  /** Everything that the page shows after k events. */
  show(k) {
    if (this.kept.has(k)) return this.kept.get(k);
    this.goTo(k < this.steps.done ? Math.max(0, k - KEPT_PICTURES + 1) : k, k);
    for (this.keep(); this.steps.done < k; this.keep()) this.go();
    return this.kept.get(k);
  }

  /** Keeps what is shown now. */
  keep() {
    const k = this.steps.done;
    const queue = this.users.queue();
    const held = queue.reduce((sum, { bytes }) => sum + bytes, 0);
    const picture = this.steps.draw();
    const told = k ? { line: this.trace.at(k - 1), ...this.tell(k, picture) } : { line: "", words: [] };
    this.kept.delete(k);
    this.kept.set(k, { k, ...picture, ...told, queue: queue.slice(0, MOST_TOLD), held, limit: this.options.quarantine });
    while (this.kept.size > 2 * KEPT_PICTURES) this.kept.delete(this.kept.keys().next().value);
  }

  /** The last event in words: the law that its fault is an instance of, or why its error is let pass; and the granules that it touched. */
  tell(k, { tags }) {
    const event = eventOf(this.trace.at(k - 1));
    const pointer = this.users.useOf(event.v);
    if (k > this.report.events) return { words: [eventWords(event), "Its line of the report is not there yet."] };
    const report = reported(this.report, k);
    const fault = faultOf(report);
    const done = report ? reportWords(report) : doneWords(event, this.users.about(event), this.steps.variable(event.v), tags);
    const law = fault ? lawOf(fault, this.users, pointer) : null;
    const why = fault || event.len === undefined ? undefined : REASONS[passReason(this.touched(event), pointer)];
    return { words: [eventWords(event), done], law, why, marks: this.marks(event, fault) };
  }

  /** The bytes of the region that an access touches, and the slot of the first one. */
  touched({ v, off, len }) {
    const at = placeOf(this.steps.variable(v) + BigInt(off));
    return { at, to: at + len, slot: this.users.slotAt(Math.floor(at / GRANULE)) };
  }

  /** The granules that an event touched, and at a tag fault both tags. Of a slot that was never given out, which has no chunk, it is the one to
   * which the pointer leads. */
  marks(event, fault) {
    if (fault?.granule !== undefined) return { ...fault, last: fault.granule, fault: true };
    if (fault?.report === "fault unmapped" || fault?.report === "refused misplaced") return null;
    if (event.len !== undefined) {
      const { at, to } = this.touched(event);
      return { granule: Math.floor(at / GRANULE), last: Math.floor((to - 1) / GRANULE) };
    }
    const { slot } = this.users.about(event);
    return slot ? { granule: slot.start + 1, last: slot.start + chunkGranules(slot.size), fault: Boolean(fault) } : null;
  }

  /** The slot over a granule after k events, with its user; null for slack. */
  slot(k, granule) {
    this.goTo(k);
    return this.users.slotAt(granule);
  }
}

/** The bytes of an input: a text, bytes, or a file. */
const bytesOf = async (input) => (input instanceof Blob ? new Uint8Array(await input.arrayBuffer()) : asBytes(input));

const ANSWERS = {
  async start({ tool, steps }) {
    engines = await Engines.load(tool, steps);
  },
  /** Keeps a text for calls that name it. */
  hold({ name, input }) {
    held.set(name, asBytes(input));
  },
  /** Calls an engine on a text or on one that is kept, with a first one for commands over two, and keeps a text that it does not refuse
   * under a name. */
  call({ command, options, first, input, of, keep }) {
    const answer = engines.call(command, options, of === undefined ? input : held.get(of), first);
    if (keep !== undefined && answer.status < 2) this.hold({ name: keep, input });
    return answer;
  },
  /** Takes a trace, and returns its profile, or its fault, or why it is no text. */
  async trace({ input }) {
    const bytes = await bytesOf(input);
    if (!isText(bytes)) return { notText: notText(bytes) };
    const answer = engines.call("profile", {}, bytes);
    if (!answer.status) taken = new Trace(bytes);
    return answer;
  },
  /** Begins a replay: the number of its events, and its report where that is there at once. */
  replay(words) {
    replay?.steps?.free();
    replay = null;
    replay = new Replay(words);
    const events = replay.trace.length;
    return { events, report: replay.report.events === events ? toldOf(replay.report) : null };
  },
  /** The report of a whole trace, for the worker that shows it, and what the page shows of it. */
  async report({ input, line, options, events }) {
    const report = reportOf(line, options, { bytes: await bytesOf(input), length: events });
    return { told: toldOf(report), report };
  },
  /** Takes the report of the whole trace. */
  reported({ report }) {
    replay.report = report;
    replay.kept.clear();
  },
  show({ k }) {
    return replay.show(Math.max(0, Math.min(k, replay.trace.length)));
  },
  slot({ k, granule }) {
    return replay.slot(k, granule);
  },
};

onmessage = async ({ data: { id, what, words } }) => {
  try {
    postMessage({ id, answer: await ANSWERS[what](words) });
  } catch (error) {
    postMessage({ id, error: String(error.message ?? error) });
  }
};
