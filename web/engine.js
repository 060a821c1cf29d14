// The engines in WebAssembly: `engines.call("tune", {limit: 8, step: 1}, bytes)` is what the command writes, with its exit status.
// `engines.begin(line, trace, options)` is a replay that goes on event by event. Runs in a page's worker and in node.
"use strict";

/** A structure of these options or their defaults, of 9 to 16 bytes, as the calling convention passes it: in two words, the second of 4 bytes if these do. */
function packed(names, options) {
  const room = new DataView(new ArrayBuffer(16));
  let at = 0;
  for (const name of names) {
    const bits = OPTION_BITS[name];
    at = Math.ceil((8 * at) / bits) * (bits / 8);
    room[`setUint${bits}`](at, options[name] ?? DEFAULTS[name], true);
    at += bits / 8;
  }
  return [room.getBigInt64(0, true), at > 12 ? room.getBigInt64(8, true) : room.getInt32(8, true)];
}

const asBytes = (input) => (typeof input === "string" ? new TextEncoder().encode(input) : input);
const latin = new TextDecoder("latin1");
const asText = (bytes) => latin.decode(bytes);

/** A WebAssembly module and its memory. */
class Module {
  static async load(bytes) {
    return new Module((await WebAssembly.instantiate(bytes, {})).instance);
  }

  constructor(instance) {
    this.exports = instance.exports;
    this.trapped = false;
  }

  /** A place of so many bytes. */
  take(length) {
    const place = this.exports.web_take(BigInt(length));
    if (!place) throw new RangeError("the page is out of memory");
    return place;
  }

  give(...places) {
    if (!this.trapped) for (const place of places) this.exports.web_give(place);
  }

  bytes(place, length) {
    return new Uint8Array(this.exports.memory.buffer, Number(place), Number(length));
  }

  word(place) {
    return new DataView(this.exports.memory.buffer).getBigUint64(Number(place), true);
  }

  /** A place with these bytes, and their number. */
  put(input) {
    const bytes = asBytes(input);
    const place = this.take(bytes.length);
    this.bytes(place, bytes.length).set(bytes);
    return [place, BigInt(bytes.length)];
  }

  /** Calls a function. What a trap leaves is half written, so no call comes after it. */
  run(name, ...words) {
    if (this.trapped) throw new Error("the module trapped before");
    try {
      return this.exports[name](...words);
    } catch (error) {
      this.trapped = true;
      throw error;
    }
  }
}

/** A replay of a trace on a heap. */
class Steps {
  constructor(module, line, trace, options) {
    const texts = [module.put(line), module.put(trace)];
    const granules = options.granules ?? DEFAULTS.granules;
    Object.assign(this, { module, granules, handle: module.take(8), facts: module.take(24), done: 0 });
    module.bytes(this.handle, 8).fill(0);
    const status = module.run("mte_step_new", ...packed(HEAP_OPTIONS, options), ...texts[0], ...texts[1], this.handle);
    module.give(texts[0][0], texts[1][0]);
    if (status) {
      module.give(this.handle, this.facts);
      throw new Error(`no replay: ${ENDED[status]}`);
    }
  }

  /** Performs the next event; whether there was one. */
  go() {
    const went = this.module.run("mte_step_go", this.handle) !== 0;
    this.done += went ? 1 : 0;
    return went;
  }

  /** The tag and the kind of each granule: 0 slack, 1 header, 2 tail, 3 dead, 4 live. */
  draw() {
    const [m, n] = [this.module, this.granules];
    const [tags, kinds] = [m.take(n), m.take(n)];
    m.run("mte_step_draw", this.handle, tags, BigInt(n), kinds, BigInt(n));
    const picture = { tags: m.bytes(tags, n).slice(), kinds: m.bytes(kinds, n).slice() };
    m.give(tags, kinds);
    return picture;
  }

  /** The address in a variable; 0 is null. */
  variable(v) {
    return BigInt.asUintN(64, this.module.run("mte_step_variable", this.handle, v));
  }

  /** The slot over a granule, as `mte_step_slot` has it: the size and the tag are those of its last user. Null for slack and outside of the region. */
  slot(granule) {
    if (!(granule >= 0 && granule < this.granules)) return null;
    if (!this.module.run("mte_step_slot", this.handle, granule, this.facts)) return null;
    const [number, start, granules, state, size, tag] = new Uint32Array(this.module.exports.memory.buffer, Number(this.facts), 6);
    return { number, start, granules, state, size, tag };
  }

  free() {
    this.module.run("mte_step_free", this.handle);
    this.module.give(this.handle, this.facts);
  }
}

/** All engines of the page. */
class Engines {
  static async load(tool, steps) {
    return Object.assign(new Engines(), { tool: await Module.load(tool), steps: await Module.load(steps) });
  }

  /** What a command answers: its exit status and its text, of standard output or, for status 2, of standard error. FIRST is a class line, a
   * sheet or a fit, which those of OF_TWO_TEXTS take apart from the input. */
  call(command, options, input, first) {
    const { status, ended, bytes } = this.answer(command, options, input, first);
    return { status, ended, text: status === 2 ? `error ${asText(bytes)}\n` : asText(bytes) };
  }

  /** The same in bytes, of a fault without the word before it. */
  answer(command, options, input, first = "") {
    if (first && !OF_TWO_TEXTS.includes(command)) throw new RangeError(`${command} takes one text`);
    const m = this.tool;
    const words = packed(Object.keys(OPTION_BITS), options);
    const [before, many] = m.put(first);
    const [from, length] = m.put(input);
    const [ending, text] = [m.take(16), m.take(16)];
    m.bytes(text, 16).fill(0);
    if (m.run("mte_c_append", before, many, text)) throw new RangeError("the page is out of memory");
    m.run("mte_c_call", ending, COMMANDS.indexOf(command), ...words, from, length, text);
    const status = Number(m.word(ending) & 0xffffffffn);
    const size = m.word(text + 8n);
    const room = m.take(size);
    m.run("mte_c_read", text, 0n, room, size);
    const bytes = m.bytes(room, size).slice();
    m.run("mte_c_free", text);
    m.give(before, from, ending, text, room);
    return { status, ended: ENDED[status], bytes };
  }

  begin(line, trace, options) {
    return new Steps(this.steps, line, trace, options);
  }
}
