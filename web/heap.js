// The view of who wants to see memory tagging: a trace step by step.
"use strict";

const EVENTS = /^(malloc|calloc|realloc|free|load|store|addg|subg)( |$)/;
const [SLACK, HEADER, TAIL, DEAD, LIVE] = KINDS.keys();
/** So many granules stand in the grid, and in a row of the strip above it. */
const [PART, STRIP] = [1024, 512];
const MOST_LISTED = 200;
/** What is replayed, and what is shown of it: k is the number of events before it. */
const watched = { events: 0, faults: [], told: [], totals: [], stops: [], notes: new Map(), shown: null, chosen: null, part: 0 };
Object.defineProperty(watched, "k", { get: () => watched.shown?.k ?? 0 });

const FIELDS = { granules: "The number of granules", seed: "The seed", quarantine: "The quarantine", "heap-limit": "The limit of classes" };

const numberIn = (id) => Number($(id).value);
/** The first granule of the part of the region that has this one. */
const partOf = (granule) => PART * Math.floor(granule / PART);

/** Says why a trace is not replayed, and above the view which one it still shows; returns false. */
function refuseTrace(words) {
  tell("trace-told", words, "bad");
  const still = watched.of ? ` The picture is still of ${watched.of}.` : "";
  say(`${watched.name} is not replayed: the words under "The trace" say why.${still}`, true, "heap");
  return false;
}

/** Whether each number field holds a whole number of its range. */
function areInRange() {
  const field = Object.keys(FIELDS).map($).find((it) => !it.checkValidity());
  field?.focus();
  return field ? refuseTrace(`${FIELDS[field.id]} is a whole number from ${grouped(Number(field.min))} to ${grouped(Number(field.max))}.`) : true;
}

/** Puts the cursor on a line of the trace. */
function showLine(number) {
  const box = $("trace");
  const lines = box.value.split("\n");
  const before = lines.slice(0, number - 1).reduce((sum, line) => sum + line.length + 1, 0);
  box.focus();
  box.setSelectionRange(before, before + lines[number - 1].length);
}

/** Puts a trace, a text or a file, into the editor; a long one stays out of it. */
function edit(trace, name, notes = []) {
  Object.assign(watched, { name, long: putText("trace", trace) ? trace : null, notes: new Map(notes) });
}

/** Takes a trace with the table, the heap and the notes that it comes with, as find_faults or a link has them. */
async function takeGiven(trace, name, { line, heap, notes }, more) {
  edit(trace, name, notes);
  $("tuned").checked = false;
  $("line").value = line;
  for (const [id, value] of Object.entries(heap)) $(id).value = value;
  return replayTrace(more);
}

/** Takes a trace, a text or a file. A small one gets the smallest region in which no class runs out of slots, so that all of it is seen. */
async function takeTrace(trace, name) {
  edit(trace, name);
  const isSmall = typeof trace === "string" && trace.length < 4096;
  $("quarantine").value = isSmall ? 256 : 65536;
  for (const granules of isSmall ? [128, 256, 1024, 4096, 65536] : [65536]) {
    $("granules").value = granules;
    if (!(await replayTrace())) return false;
    if (watched.totals.includes("null exhausted 0")) break;
  }
  return true;
}

/** Replays the trace of the editor, says above the view which it is, with MORE of it, and returns whether it could. */
async function replayTrace(more = "") {
  if (!areInRange()) return false;
  const trace = watched.long ?? $("trace").value;
  const profile = await ask("trace", { input: trace });
  if (profile.notText) return refuseTrace(`This is no text of mte_tool: ${profile.notText}.`);
  if (profile.status) {
    const fault = faultWords(profile.text);
    if (fault.line && watched.long === null) showLine(fault.line);
    return refuseTrace(fault.words);
  }
  if ($("tuned").checked) {
    const sheet = await ask("call", { command: "tune", options: { limit: numberIn("heap-limit"), step: 1 }, input: profile.text });
    $("line").value = sheet.text.split("\n")[0];
  }
  const line = $("line").value.trim();
  const table = await ask("call", { command: "score", options: {}, first: line, input: "" });
  if (table.status === 2) {
    $("line").focus();
    return refuseTrace(`The table: ${faultWords(table.text).words}`);
  }
  const heap = { granules: numberIn("granules"), seed: numberIn("seed"), quarantine: numberIn("quarantine") };
  const { events, report } = await ask("replay", { line, options: heap });
  Object.assign(watched, { of: watched.name, replayed: trace, line, heap, events, profile: profile.text, chosen: null });
  Object.assign(watched, { faults: [], told: [], totals: [] });
  $("linked").hidden = true;
  tell("trace-told", `${counted(events, "event")}.`, "soft");
  $("at").max = $("events").value = events;
  $("granule").textContent = "None is chosen.";
  showFaults();
  await go(0);
  if (report) takeReport(report);
  else await readReport();
  say(`${watched.name}: a trace of ${counted(watched.events, "event")}${more}.`, false, "heap");
  return true;
}

/** The report of a long trace: the other worker reads it, while the pictures are looked at. */
async function readReport() {
  const { replayed, line, heap, events } = watched;
  const { told, report } = await ask("report", { input: replayed, line, options: heap, events }, READS);
  // meanwhile another trace may have come
  if (watched.heap !== heap) return;
  takeReport(told);
  await ask("reported", { report }, SHOWS, [report.bytes.buffer, report.places.buffer]);
  await showWished();
}

/** The faults, the refusals and the totals. */
function takeReport(report) {
  Object.assign(watched, report);
  tell("trace-told", `${counted(watched.events, "event")}, ${grouped(watched.faults.length)} of them with a fault or a refusal.`, "soft");
  $("totals").textContent = watched.totals.join("\n");
  showFaults();
}

/** Replays what stands in the editor: an example, a file, or a trace of the user's own. */
function replayEdited() {
  watched.notes = new Map();
  return replayTrace();
}

/** Lists the faults and refusals, and the errors that notes tell of, whether the heap catches them or not. */
function showFaults() {
  const words = new Map([...watched.told.map(([k, report]) => [k, reportWords(report)]), ...watched.notes]);
  watched.stops = watched.notes.size ? [...new Set([...watched.faults, ...watched.notes.keys()])].sort((a, b) => a - b) : watched.faults;
  const item = (k) => `<li><button data-k="${k}">${k}: ${escaped(words.get(k))}</button></li>`;
  $("faults").innerHTML = watched.stops.slice(0, MOST_LISTED).map(item).join("");
  const more = watched.stops.length - MOST_LISTED;
  $("more-faults").textContent = more > 0 ? `and ${grouped(more)} more` : watched.stops.length ? "" : "none";
}

/** Shows the heap after as many events as were wished last. */
const showWished = oneAtATime(async () => {
  watched.shown = await ask("show", { k: watched.wished });
  showHeap();
});

/** Shows the heap after k events, or after the first or the last where there are not so many. */
function go(k) {
  watched.wished = k;
  return showWished();
}

function showHeap() {
  const s = watched.shown;
  const note = watched.notes.get(s.k);
  $("at").value = $("at-shown").value = s.k;
  $("event").textContent = s.k ? s.line : "before the first event";
  $("event-words").textContent = s.words.join(" ");
  $("note").hidden = note === undefined;
  $("note").textContent = note ?? "";
  $("law").hidden = !s.law && !s.why;
  tell("law", s.law ? `${s.law.name}: ${s.law.words}` : s.why ? `An error that the heap lets pass. ${s.why}` : "", s.law ? "" : "pass");
  $("queue-told").textContent = `${bytesText(s.held)} of ${bytesText(s.limit)} are held back. The oldest is first.`;
  $("queue").innerHTML = s.queue.map((q) => `<li>slot ${q.number}: ${bytesText(q.bytes)}, freed by event ${q.freed}</li>`).join("");
  for (const button of $("faults").querySelectorAll("button")) button.setAttribute("aria-current", Number(button.dataset.k) === s.k);
  if (s.marks) watched.part = partOf(s.marks.granule);
  if (watched.part >= s.kinds.length) watched.part = 0;
  showGrid();
  tellChosen();
}

/** The form of a granule in the grid: classes of the style, its tag, and its text. What the event touched is framed; at a tag fault it has both
 * tags. */
function formOf(granule) {
  const { kinds, tags, marks } = watched.shown;
  const [kind, tag] = [kinds[granule], tags[granule]];
  const text = kind === HEADER ? "H" : kind === DEAD || kind === LIVE ? tag.toString(16) : "";
  if (!marks || granule < marks.granule || granule > marks.last) return [`cell ${KINDS[kind]}`, tag, text];
  if (marks.memory !== undefined) return ["cell fault both", tag, `${marks.memory.toString(16)}≠${marks.pointer.toString(16)}`];
  return [`cell ${KINDS[kind]} ${marks.fault && granule === marks.granule ? "fault" : "touched"}`, tag, text];
}

/** Shows a part of the region. */
function showGrid() {
  const { k, kinds, marks } = watched.shown;
  const [first, end] = [watched.part, Math.min(watched.part + PART, kinds.length)];
  const grid = $("grid");
  grid.classList.toggle("large", kinds.length > 256);
  while (grid.childElementCount > end - first) grid.lastChild.remove();
  while (grid.childElementCount < end - first) grid.append(document.createElement("i"));
  // most granules are as they were
  [...grid.children].forEach((cell, i) => {
    const form = formOf(first + i);
    if (cell.form === String(form)) return;
    [cell.form, cell.className, cell.textContent] = [String(form), form[0], form[2]];
    cell.style.setProperty("--tag", form[1]);
  });
  const numbers = KINDS.map((kind, i) => `${kinds.subarray(first, end).filter((it) => it === i).length} ${kind}`).join(", ");
  const faulty = marks?.fault ? `; the fault is at granule ${marks.granule}` : "";
  grid.setAttribute("aria-label", `Granules ${first} to ${end - 1} after event ${k}: ${numbers}${faulty}`);
  const which = `Granules ${grouped(first)} to ${grouped(end - 1)} of ${grouped(kinds.length)}`;
  $("part").textContent = kinds.length > PART ? `${which}: click in the strip above for others.` : "";
  frameChosen();
  drawOverview();
}

function frameChosen() {
  $("grid").querySelector(".chosen")?.classList.remove("chosen");
  if (watched.chosen !== null) $("grid").children[watched.chosen - watched.part]?.classList.add("chosen");
}

const css = (name) => getComputedStyle(document.documentElement).getPropertyValue(name);

/** A color of the style as the word of a pixel. */
function pixel(g, color) {
  g.fillStyle = color;
  g.fillRect(0, 0, 1, 1);
  return new Uint32Array(g.getImageData(0, 0, 1, 1).data.buffer)[0];
}

/** The whole region, a pixel for each granule; the part that the grid shows is framed. */
function drawOverview() {
  const { kinds, tags } = watched.shown;
  const canvas = $("overview");
  canvas.hidden = kinds.length <= PART;
  if (canvas.hidden) return;
  [canvas.width, canvas.height] = [STRIP, Math.ceil(kinds.length / STRIP)];
  const g = canvas.getContext("2d");
  // as the style has them: a color for each kind but live, and then one for each tag
  const hues = Array.from({ length: 16 }, (_, tag) => `hsl(${tag * 137.5} 65% ${css("--light")})`);
  const words = [...["--back", "--header", "--shade", "--line"].map(css), ...hues].map((color) => pixel(g, color));
  const image = g.createImageData(STRIP, canvas.height);
  const pixels = new Uint32Array(image.data.buffer);
  for (let i = 0; i < kinds.length; i++) pixels[i] = words[kinds[i] === LIVE ? LIVE + tags[i] : kinds[i]];
  g.putImageData(image, 0, 0);
  g.strokeStyle = css("--bad");
  g.strokeRect(0.5, watched.part / STRIP + 0.5, STRIP - 1, PART / STRIP - 1);
}

/** Shows a part of the region, if another one is shown. */
function showPart(part) {
  const isShown = part === watched.part;
  watched.part = part;
  if (isShown) frameChosen();
  else showGrid();
}

function choose(granule) {
  watched.chosen = Math.max(0, Math.min(watched.heap.granules - 1, granule));
  showPart(partOf(watched.chosen));
  return tellChosen();
}

/** Tells what is known of the granule that is chosen, if one is. */
async function tellChosen() {
  const { chosen, shown } = watched;
  if (chosen === null) return;
  const slot = await ask("slot", { k: shown.k, granule: chosen });
  if (chosen === watched.chosen && shown === watched.shown) $("granule").textContent = granuleWords(shown, chosen, slot);
}

function granuleWords({ kinds, tags }, granule, slot) {
  const words = `Granule ${granule}: ${KIND_WORDS[KINDS[kinds[granule]]]}, tag ${tags[granule]}.`;
  if (!slot) return `${words} It is in no slot.`;
  const block = `Slot ${slot.number} has a block of ${bytesText(GRANULE * slot.granules)} from granule ${slot.start} on.`;
  if (!slot.generation) return `${words} ${block} It was never given out.`;
  const user = `Event ${slot.made} gave it to variable ${slot.user}, and the last request for it was of ${bytesText(slot.size)}.`;
  const freed = slot.freed ? ` Event ${slot.freed} freed it.` : "";
  return `${words} ${block} ${user} That is the slot's user number ${slot.generation}.${freed}`;
}

const STEPS = {
  first: () => go(0),
  "fault-before": () => go(watched.stops.findLast((k) => k < watched.k) ?? watched.k),
  back: () => go(watched.k - 1),
  on: () => go(watched.k + 1),
  "fault-next": () => go(watched.stops.find((k) => k > watched.k) ?? watched.k),
  last: () => go(watched.events),
};
const KEYS = { n: "on", p: "back", f: "fault-next", b: "fault-before" };

for (const [id, step] of Object.entries(STEPS)) $(id).onclick = told(step);
$("at").oninput = told(() => go(numberIn("at")));
$("run").onclick = told(replayEdited);
$("trace").oninput = () => {
  Object.assign(watched, { long: null, name: "your own trace" });
  $("example").value = "";
};
$("line").oninput = () => ($("tuned").checked = false);
$("faults").onclick = (event) => event.target.dataset.k && go(Number(event.target.dataset.k));
const chooseAt = ({ target }) => target !== $("grid") && choose(watched.part + [...$("grid").children].indexOf(target));
$("grid").onpointermove = (event) => event.pointerType === "mouse" && chooseAt(event);
$("grid").onclick = chooseAt;
$("grid").onkeydown = (event) => {
  const columns = getComputedStyle($("grid")).gridTemplateColumns.split(" ").length;
  const move = { ArrowLeft: -1, ArrowRight: 1, ArrowUp: -columns, ArrowDown: columns }[event.key];
  if (!move || !watched.shown) return;
  event.preventDefault();
  choose(watched.chosen === null ? watched.part : watched.chosen + move);
};
$("overview").onclick = (event) => {
  const box = $("overview").getBoundingClientRect();
  const granule = STRIP * Math.floor(((event.clientY - box.top) / box.height) * $("overview").height);
  showPart(partOf(Math.min(granule, watched.heap.granules - 1)));
};
document.addEventListener("keydown", (event) => {
  const typing = event.target.matches("textarea, select, input:not([type=range])");
  if (typing || event.ctrlKey || event.metaKey || event.altKey || $("view-heap").hidden || !watched.shown) return;
  $(KEYS[event.key])?.click();
});
matchMedia("(prefers-color-scheme: dark)").addEventListener("change", () => watched.shown && drawOverview());
