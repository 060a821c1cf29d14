// Links that carry what a view shows, compressed, behind their #: a profile, a history or a timeline with its sheet, or two of them; or a trace
// with its heap. Who opens one has the engines of the page tune and check anew. What a link says is data of a stranger: each part is tested.
"use strict";

const LINK_MARK = "#mte_tool=";
const LINK_VERSION = 1;
const MOST_LINK = 64000;
const SAFE_LINK = 2000;
const MOST_NAME = 200;
/** More bytes than this of a trace's file are not even compressed. */
const MOST_PACKED = 1 << 22;

class LinkFault extends Error {}

const canLink = () => typeof CompressionStream === "function" && typeof DecompressionStream === "function";

function asLetters(bytes) {
  const text = Array.from(bytes, (byte) => String.fromCharCode(byte)).join("");
  return btoa(text).replaceAll("+", "-").replaceAll("/", "_").replaceAll("=", "");
}

function fromLetters(letters) {
  try {
    return fromBase64(letters.replaceAll("-", "+").replaceAll("_", "/"));
  } catch {
    throw new LinkFault("it has other characters than letters, digits, - and _, or a part of it is missing");
  }
}

/** What a view shows, for a link; null where that is far too long for one. */
async function shownData() {
  if (shownView() === "heap") {
    const { of: name, replayed, line, k: event, notes, heap } = watched;
    if ((replayed.size ?? replayed.length) > MOST_PACKED) return null;
    const trace = typeof replayed === "string" ? replayed : await replayed.text();
    return { version: LINK_VERSION, heap: { name, trace, line, event, notes: [...notes], ...heap } };
  }
  const held = filledSlots().map((slot) => ({ name: slot.name, text: slot.counts.text, sheet: slot === tuner ? $("sheet").value : slot.sheet }));
  const { limit, step } = options();
  const at = filledSlots().indexOf(tuner);
  return { version: LINK_VERSION, tune: { limit, step, largest: $("largest").checked, own: $("own").value, at, slots: held } };
}

/** The letters of a link that carries this. */
async function packed(value) {
  const packing = new Blob([JSON.stringify(value)]).stream().pipeThrough(new CompressionStream("deflate-raw"));
  return asLetters(new Uint8Array(await new Response(packing).arrayBuffer()));
}

/** What the letters of a link carry. */
async function unpacked(letters) {
  let length = 0;
  const limit = new TransformStream({
    transform(piece, made) {
      length += piece.length;
      if (length <= MOST_INPUT) made.enqueue(piece);
      else made.terminate();
    },
  });
  const unpacking = new Blob([fromLetters(letters)]).stream().pipeThrough(new DecompressionStream("deflate-raw")).pipeThrough(limit);
  try {
    return await new Response(unpacking).json();
  } catch (error) {
    if (length > MOST_INPUT) throw new LinkFault(`it holds more than ${bytesText(MOST_INPUT)}`);
    if (error instanceof SyntaxError) throw new LinkFault("its data is not of a page of mte_tool");
    throw new LinkFault("its data can't be decompressed: a part of it is missing, or was changed");
  }
}

const isNumber = (value, least, most) => Number.isInteger(value) && value >= least && value <= most;
const isShort = (value) => typeof value === "string" && value.length <= MOST_NAME;
const isSlot = (it) => it && isShort(it.name) && typeof it.text === "string" && typeof it.sheet === "string" && kindOf(it.text) !== null;
const isTuning = (it) =>
  isNumber(it.limit, 1, MOST_CLASSES) && [1, 2, 4, 8].includes(it.step) && typeof it.largest === "boolean" && typeof it.own === "string" &&
  Array.isArray(it.slots) && isNumber(it.slots.length, 1, 2) && it.slots.every(isSlot) && isNumber(it.at, 0, it.slots.length - 1);
const isNote = (it) => Array.isArray(it) && it.length === 2 && isNumber(it[0], 0, 1e6) && typeof it[1] === "string";
const isHeap = (it) =>
  isShort(it.name) && Array.isArray(it.notes) && it.notes.every(isNote) && [it.trace, it.line].every((text) => typeof text === "string") &&
  isNumber(it.event, 0, 1e6) && [it.granules, it.seed, it.quarantine].every((n) => isNumber(n, 0, 1e9));

/** Shows what a link carries. */
async function openLink(hash) {
  try {
    if (!canLink()) throw new LinkFault("this browser can't read it. A newer one can");
    const { version, tune: tuning, heap } = (await unpacked(hash.slice(LINK_MARK.length))) ?? {};
    if (version !== LINK_VERSION) throw new LinkFault("it is of another version of this page");
    if (tuning && isTuning(tuning)) return await openTuning(tuning);
    if (heap && isHeap(heap)) return await openHeap(heap);
    throw new LinkFault("its data is not of a page of mte_tool");
  } catch (error) {
    if (!(error instanceof LinkFault)) throw error;
    say(`The link is refused: ${error.message}.`, true);
    return false;
  }
}

async function openTuning({ limit, step, largest, own, at, slots: held }) {
  show("tune");
  [$("limit").value, $("step").value, $("largest").checked, $("own").value] = [limit, step, largest, own];
  slots[1] = newSlot("B");
  tuner = slots[0];
  for (const [i, { name, text }] of held.entries()) {
    comesTo = i;
    if (!(await takeCounts(text, name))) return false;
  }
  lookAt(at);
  say(`${tuner.name}: a ${tuner.kind} of ${counted(tuner.counts.sizes.length, "size")}, by a link.`, false, "tune");
  $("sheet").value = held[at].sheet;
  const { words, good } = await checkSheet();
  tellVerdict("from-link", `The sheet came with the link, and this browser has checked it again: ${words}`, good);
  $("from-link").hidden = false;
  return true;
}

async function openHeap({ name, trace, line, event, notes, granules, seed, quarantine }) {
  show("heap");
  const went = await takeGiven(trace, name, { line, notes, heap: { granules, seed, quarantine } }, ", by a link");
  if (went) await go(event);
  return went;
}

/** Makes a link to what is shown, and copies it where the browser lets it. */
async function makeLink() {
  $("linked").hidden = false;
  $("link").value = "";
  if (!canLink()) return tell("link-told", "This browser can't compress, so it makes no link. A newer one does.", "bad");
  const shown = await shownData();
  const link = shown && `${location.href.split("#")[0]}${LINK_MARK}${await packed(shown)}`;
  if (!link || link.length > MOST_LINK) {
    const size = link ? `That would be a link of ${grouped(link.length)} characters` : "That is far too long for a link";
    const most = `a link has at most ${grouped(MOST_LINK)}, since browsers and programs cut longer ones`;
    return tell("link-told", `${size}; ${most}. Send the file, and the sheet if it is one of counts.`, "bad");
  }
  $("link").value = link;
  const copied = await copyText(link);
  const cut = link.length > SAFE_LINK ? ` Some mail and chat programs cut links of more than ${grouped(SAFE_LINK)}.` : "";
  const where = location.protocol === "file:" ? " It leads to this page's file: who has the page elsewhere puts what stands from # on behind its address." : "";
  const size = `${grouped(link.length)} characters`;
  return tell("link-told", `The link has ${size}${copied ? ", and is copied" : ": copy it from here"}.${cut}${where}`, "soft");
}

async function copyText(text) {
  try {
    await navigator.clipboard.writeText(text);
    return true;
  } catch {
    $("link").select();
    return false;
  }
}

/** A link and what it led to are no longer those of what is shown. */
function forgetLink() {
  $("linked").hidden = true;
  $("from-link").hidden = true;
}

const isLink = (text) => text.length <= 4 * MOST_LINK && /^\S*#mte_tool=\S*$/.test(text.trim());

$("share").onclick = told(makeLink);
$("link").onfocus = () => $("link").select();
addEventListener("hashchange", told(() => location.hash.startsWith(LINK_MARK) && openLink(location.hash)));
