// What the page says of each event of a trace: what it asks for, what became of it, and the law or the reason of that.
"use strict";

const LAWS = {
  law_bookkeeping:
    "An access that touches slack, a header or a tail is a fault through every pointer: their tag is 0, and no pointer has that tag.",
  law_neighbours:
    "An access to a slot of the other parity is a fault: slots with even numbers take odd tags, and slots with odd numbers even ones. " +
    "Both neighbours of a slot have the other parity.",
  law_freed:
    "An access to the pointer's own slot after its free is a fault, until the slot is reused and freed again: the free drew another tag.",
  law_own_pointer: "free and realloc take the own pointer of a live chunk, and no other pointer but null.",
  law_accesses: "A load or a store outside of the region is unmapped. A null pointer leads outside of it.",
};
// The law of a tag fault that no other law promises.
const BY_ITS_TAG =
  "An access is a tag fault exactly if it is mapped and touches a granule whose tag differs from the pointer's. " +
  "No further law promised that they differ here.";
const REASONS = {
  last: "It is inside the last granule of its chunk, after the bytes that were requested. The unit of tags is a granule of 16 bytes.",
  reused: "The slot's next user was freed too, and the same tag came again. The heap avoids only the tag that the slot had last.",
  parity: "It falls in another slot of the same parity that happens to have the same tag.",
  made: "The pointer was made by addg or subg, and happens to have the tag of that memory.",
};

/** The event that a line of a trace spells. The engines have read the trace before, so the line is right. */
function eventOf(line) {
  const [name, ...words] = line.split(" ");
  const [v, second, third, fourth] = words.map(Number);
  if (name === "load" || name === "store") return { name, v, off: second, len: third, byte: words[3] };
  if (name === "addg" || name === "subg") return { name, v, w: second, up: third, steps: fourth };
  return { name, v, size: second };
}

/** What an event asks for. */
function eventWords({ name, v, size, off, len, byte, w, up, steps }) {
  if (len !== undefined) {
    const where = off < 0 ? `${bytesText(-off)} before` : off === 0 ? "at" : `${bytesText(off)} after`;
    return `${name}: ${bytesText(len)}${byte === undefined ? "" : ` ${byte}`}, ${where} the address in variable ${v}.`;
  }
  if (w !== undefined) {
    const moved = `${counted(up, "granule")} further ${name === "addg" ? "up" : "down"}, its tag ${counted(steps, "step")} on`;
    return `${name}: variable ${v} is the address in variable ${w}, ${moved}.`;
  }
  if (name === "free") return `free: variable ${v} gives its block back.`;
  const what = { malloc: "", calloc: " of zeros", realloc: " for its block" }[name];
  return `${name}: variable ${v} requests ${bytesText(size)}${what}.`;
}

/** What the heap did about it, where the report has no line. */
function doneWords(event, { slot, from, inPlace }, address, tags) {
  if (event.name === "free") return slot ? `Slot ${slot.number} is dead now, under tag ${tags[slot.start + 1]}.` : "A free of null does nothing.";
  if (inPlace) return `Slot ${slot.number} is resized in place; its tag ${slot.tag} stays.`;
  const mover = from ? `The block moves from slot ${from.number}, and` : "It";
  if (slot) return `${mover} gets slot ${slot.number} of ${bytesText(GRANULE * slot.granules)}, under tag ${slot.tag}.`;
  if (event.name === "load" || event.name === "store") return "The tags agree, and the bytes move.";
  return `The pointer's tag is ${tagOf(address)}.`;
}

/** A fault or a refusal in the report; a tag fault with its granule, both tags and the kind. */
function faultOf(report) {
  if (!report || report.startsWith("data")) return null;
  const [, granule, memory, pointer, kind] = /^fault tag granule (\d+) memory (\d+) pointer (\d+) in (\w+)/.exec(report) ?? [];
  return granule ? { report, granule: Number(granule), memory: Number(memory), pointer: Number(pointer), kind } : { report };
}

/** The law that a fault or a refusal is an instance of, with its sentence. */
function lawOf(fault, users, pointer) {
  if (fault.report.startsWith("null")) return null;
  if (fault.granule === undefined) return named(fault.report.startsWith("refused") ? "law_own_pointer" : "law_accesses");
  const name = lawOfTags(fault, users.slotAt(fault.granule), pointer);
  return name ? named(name) : { name: "law_accesses", words: BY_ITS_TAG };
}

const named = (name) => ({ name, words: LAWS[name] });

/** The law that promised that the tags differ, or null. */
function lawOfTags({ kind }, slot, pointer) {
  if (kind !== "dead" && kind !== "other") return "law_bookkeeping";
  if (!pointer) return null;
  if ((slot.number - pointer.number) % 2) return "law_neighbours";
  if (slot.number !== pointer.number) return null;
  const isLive = slot.state === LIVE;
  const early = slot.generation === pointer.generation ? !isLive : slot.generation === pointer.generation + 1 && isLive;
  return early ? "law_freed" : null;
}

/** Why an access that a program should not make is let pass, or null where the access is right. */
function passReason({ at, to, slot }, pointer) {
  const begin = GRANULE * (slot.start + 1);
  const isLive = slot.state === LIVE;
  if (!pointer) return isLive && at >= begin && to <= begin + slot.size ? null : "made";
  if (slot.number !== pointer.number) return "parity";
  if (slot.generation !== pointer.generation || !isLive) return "reused";
  return to > begin + slot.size ? "last" : null;
}
