// What the page itself notes of a replay: who used each slot and when, and which slots waited in the quarantine. All else of the heap it asks the
// proved replay. Nothing that is noted is lost on a way back, so only the replay begins anew then.
"use strict";

// how a slot stands, where 0 was never given out, and 3 is released
const [LIVE, HELD_BACK] = [1, 2];

const chunkGranules = (size) => Math.max(1, Math.ceil(size / GRANULE));
const tagOf = (address) => Number((address >> 56n) & 15n);
/** The byte of the region to which an address leads, also before or after it. */
const placeOf = (address) => Number((address & ((1n << 56n) - 1n)) - REGION);

/** The notes on the first events of a replay, of which it says what holds after those that the replay has performed. A use of a slot is from the
 * event that made it to the one that freed it, and then to the one at which the slot left the quarantine; each is 0 until it comes. */
class Users {
  constructor() {
    Object.assign(this, { steps: null, events: 0, uses: new Map(), pointers: new Map(), freed: [], front: 0 });
  }

  /** The slot over a granule, with its last use; null for slack and outside of the region. */
  slotAt(granule) {
    const slot = this.steps.slot(granule);
    if (!slot) return null;
    const use = this.uses.get(slot.number)?.findLast(({ made }) => made <= this.steps.done);
    return { generation: 0, ...use, ...slot, freed: use?.freed <= this.steps.done ? use.freed : 0 };
  }

  /** The slot into which the pointer in a variable leads. */
  slotOf(v) {
    return this.slotAt(Math.floor(placeOf(this.steps.variable(v)) / GRANULE));
  }

  /** The use for which the pointer in a variable was given out, or null. */
  useOf(v) {
    return this.pointers.get(v)?.findLast(({ event }) => event <= this.steps.done)?.use ?? null;
  }

  /** The uses whose slots are in the quarantine, the oldest first. */
  queue() {
    const before = (name) => this.freed.findLastIndex((use) => use[name] && use[name] <= this.steps.done) + 1;
    return this.freed.slice(before("left"), before("freed"));
  }

  /** The slot that the last event is about, and the one from which it moved a block. */
  about({ name, v, len, w }) {
    if (len !== undefined || w !== undefined) return {};
    const slot = this.slotOf(v);
    if (name !== "realloc") return { slot };
    const last = this.freed.findLast(({ freed }) => freed <= this.steps.done);
    return { slot, from: last?.freed === this.steps.done ? last : null, inPlace: slot?.made !== this.steps.done };
  }

  /** Performs the next event, and notes it. */
  go({ name, v, w, up, steps }) {
    const isRealloc = name === "realloc";
    const copied = up === 0 && steps === 0 ? this.useOf(w) : null;
    const before = isRealloc && this.steps.variable(v);
    const was = isRealloc || name === "free" ? this.slotOf(v) : null;
    this.steps.go();
    this.events = this.steps.done;
    if (w !== undefined) this.point(v, copied);
    if (was?.state === LIVE && this.steps.slot(was.start).state !== LIVE) this.free(was);
    if (name === "malloc" || name === "calloc" || (isRealloc && this.steps.variable(v) !== before)) this.give(v);
  }

  /** Notes of which use a variable has the pointer now, if of any. */
  point(v, use) {
    if (!this.pointers.has(v)) this.pointers.set(v, []);
    this.pointers.get(v).push({ event: this.events, use });
  }

  /** Notes what a variable was given: a slot, or null. */
  give(v) {
    const slot = this.slotOf(v);
    if (!slot) return this.point(v, null);
    const { number, start, granules, generation } = slot;
    const use = { number, start, bytes: GRANULE * granules, generation: generation + 1, user: v, made: this.events, freed: 0, left: 0 };
    if (!this.uses.has(number)) this.uses.set(number, []);
    this.uses.get(number).push(use);
    return this.point(v, use);
  }

  /** Notes that a slot was freed, and which ones left the quarantine. */
  free({ number }) {
    const use = this.uses.get(number).at(-1);
    use.freed = this.events;
    this.freed.push(use);
    for (; this.front < this.freed.length && this.steps.slot(this.freed[this.front].start).state !== HELD_BACK; this.front++) {
      this.freed[this.front].left = this.events;
    }
  }
}
