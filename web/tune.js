// The view of who tunes: the table that the engines find for a profile or a history, beside others.
"use strict";

/** One of the two profiles, histories or timelines that the page holds: what it counts, and what the engines found for it. */
const newSlot = (slot) => ({ slot, kind: null, name: "", digest: "", counts: null, sheet: "", least: [], tables: [], answers: new Map() });
const slots = [newSlot("A"), newSlot("B")];
/** The one that is looked at. */
let tuner = slots[0];
/** Which of the two the next one comes to. */
let comesTo = 0;

const classesOf = (line) => line.split("\n")[0].trim().split(" ").slice(1).map(Number);
const shareOf = (part, whole) => `${((100 * part) / whole).toFixed(part && part / whole < 0.001 ? 3 : 1)}%`;
const percent = (part, whole) => (whole ? shareOf(Number(part), Number(whole)) : "–");
/** Whether what counts is the footprint, over a history or a timeline, and not the waste on a profile. */
const isOverTime = (slot) => slot.kind !== "profile";
const options = () => ({ limit: Number($("limit").value), step: Number($("step").value) });
const finderOf = (slot) => (isOverTime(slot) ? "fit" : "tune");
const filledSlots = () => slots.filter((slot) => slot.kind);
/** What an engine says where it gives no answer. */
const refusal = (answer) => (answer.status === 2 ? faultWords(answer.text).words : `${answer.ended}.`);

/** What TUNE or FIT answers for a slot's counts, or with class 1024 forced. Answers are kept, since a slider goes back and forth. */
async function made(slot, limit, step, largest_class) {
  const key = `${limit} ${step} ${largest_class}`;
  if (!slot.answers.has(key)) {
    slot.answers.set(key, await ask("call", { command: finderOf(slot), options: { limit, step, largest_class }, of: slot.slot }));
  }
  return slot.answers.get(key);
}

const sayRefused = (name, words) => say(`${name} is refused. ${words}`, true);

const TUNE_STEPS = 5; // a table, what it counts, the verdict, the line over the number of classes, other tables

/** Takes a profile, a history or a timeline that the engines accept. */
function takeCounts(text, name, refuse = (words) => sayRefused(name, words)) {
  return withBar("tune", `The engines work on ${name}.`, TUNE_STEPS, () => readCounts(text, name, refuse));
}

async function readCounts(text, name, refuse) {
  const { limit, step } = options();
  const kind = kindOf(text) ?? "profile";
  const slot = { ...newSlot(slots[comesTo].slot), kind, name };
  const whole = text.endsWith("\n") || text === "" ? text : `${text}\n`;
  const answer = await ask("call", { command: finderOf(slot), options: { limit, step }, input: whole, keep: slot.slot });
  if (answer.status > 1) {
    refuse(refusal(answer));
    return false;
  }
  endStep();
  slot.counts = countsOf(kind, whole);
  slot.digest = await digestOf(whole);
  endStep();
  slot.answers.set(`${limit} ${step} 0`, answer);
  slots[slots.findIndex((it) => it.slot === slot.slot)] = slot;
  tuner = slot;
  say(`${name}: a ${kind} of ${counted(slot.counts.sizes.length, "size")}.`, false, "tune");
  showText();
  await tune();
  return true;
}

/** What a table has over the counts of a slot: {total}, {unserved} or {refused}. */
async function totalOf(line, slot) {
  const command = isOverTime(slot) ? "footprint" : "score";
  const answer = await ask("call", { command, options: {}, first: line, of: slot.slot });
  if (answer.status > 1) return { refused: refusal(answer) };
  const [word, second, third] = answer.text.trim().split(" ");
  return word === "not" ? { unserved: Number(third) } : { total: exactly(second) };
}

/** Tunes what the slots hold. */
const tune = oneAtATime(async () => {
  $("limit-shown").value = $("limit").value;
  for (const slot of filledSlots()) await tuneSlot(slot);
  if (tuner.kind && (await compare())) showSheet();
});

/** Finds the table of a slot, its line over the number of classes, and what the checker says. */
async function tuneSlot(slot) {
  const { limit, step } = options();
  const largest_class = Number($("largest").checked);
  const answer = await made(slot, limit, step, largest_class);
  if (answer.status > 1) return sayRefused(slot.name, refusal(answer));
  const sheet = answer.text;
  const among = { limit, step, forced: largest_class * LARGEST_CLASS };
  const judged = await (answer.status === 0 ? judge(slot, sheet) : boundOf(slot, sheet, among));
  if (judged.refused) return sayRefused(slot.name, judged.refused);
  endStep();
  const [line] = sheet.split("\n");
  const least = await lineOf(slot, sheet, step, largest_class);
  endStep();
  return Object.assign(slot, { sheet, judged, among, classes: classesOf(line), total: (await totalOf(line, slot)).total, least });
}

/** The line over the number of classes: of a profile or a history over all of it, of a timeline over the moments of its fit. */
async function lineOf(slot, sheet, step, largest_class) {
  const isTimeline = slot.kind === "timeline";
  const { text } = await (isTimeline ? madeAtMoments(slot, sheet, step, largest_class) : made(slot, MOST_CLASSES, step, largest_class));
  return text.split("\n").filter((line) => line.startsWith("row")).map((line) => exactly(line.split(" ")[1] ?? 0));
}

/** The fit over the moments that a fit of a timeline names, of as many classes as can be. A fit without a certificate names none. */
async function madeAtMoments(slot, fit, step, largest_class) {
  const moments = /^moments (.*)$/m.exec(fit)?.[1].split(" ").map(Number);
  if (!moments) return { text: "" };
  return ask("call", { command: "fit", options: { limit: MOST_CLASSES, step, largest_class }, input: slot.counts.historyAt(moments) });
}

/** What a fit without a certificate says that each table takes at least. */
function boundOf({ kind, name, digest, counts }, fit, among) {
  const [takes, least] = [/^footprint (\d+)$/m, /less than (\d+)$/m].map((form) => exactly(form.exec(fit)[1]));
  return { kind, name, digest, verdict: `between ${least}`, numbers: { ...among, takes, footprint: least, events: counts.events.length } };
}

/** What the engine says of a sheet over a slot's counts. What it refuses is {refused}. */
async function judge(slot, sheet) {
  const { kind, name, digest } = slot;
  const answer = await ask("call", { command: isOverTime(slot) ? "check-fit" : "check", options: { claim: 1 }, first: sheet, of: slot.slot });
  if (answer.status > 1) return { refused: refusal(answer) };
  const [verdict, line] = answer.text.trim().split("\n");
  if (holds({ verdict }) && !line) return { refused: "The engine does not say what it showed." };
  return { kind, name, digest, verdict, numbers: numbersOf(line ?? "") };
}

/** All tables: those of the slots beside Scudo's, and the user's own. Whether they are still those of what the slots hold. */
async function compare() {
  const filled = filledSlots().filter((slot) => slot.judged);
  const own = $("own").value.trim();
  const others = [["Scudo's default", data.scudo, 1], ["Scudo's for Android", data.android, 2], ...(own ? [["your own", own, 3]] : [])];
  for (const slot of filled) {
    const twin = filled.find((it) => it !== slot);
    const lines = twin ? [[`the table of ${twin.slot}`, `classes ${twin.classes.join(" ")}`, 4], ...others] : others;
    const found = lines.map(async ([name, line, style]) => ({ name, classes: classesOf(line).length, style, ...(await totalOf(line, slot)) }));
    slot.tables = [{ name: tableName(slot), classes: slot.classes.length, total: slot.total, style: 0 }, ...(await Promise.all(found))];
  }
  // meanwhile another may have come
  if (!filled.includes(tuner) || !filled.every((slot) => slots.includes(slot))) return false;
  $("own-told").textContent = tuner.tables.find((t) => t.refused)?.refused ?? "";
  for (const slot of filled) slot.tables = slot.tables.filter((t) => !t.refused);
  showTuned();
  return true;
}

const tableName = ({ kind, judged }) => filled(`${kind}.${holds(judged) ? "table" : "other"}`);

/** Shows all of the slot that is looked at, and both beside each other. */
function showTuned() {
  showSlots();
  showLead();
  showTables();
  showClasses();
  showPictures();
  forgetLink();
}

/** What has to be drawn anew in a window of another width, if it is seen. */
function showPictures() {
  if ($("view-tune").hidden || !tuner.judged) return;
  showCurve();
  showLayers();
  showPair();
}

/** Puts the engine's own sheet into its editor. */
function showSheet() {
  $("sheet").value = tuner.sheet;
  $("verdict").textContent = "";
}

/** The first sentence on a slot. */
function leadOf(slot) {
  const [own, ...others] = slot.tables;
  const verb = isOverTime(slot) ? "takes" : "loses";
  const share = isOverTime(slot) ? "" : `, ${percent(own.total, slot.counts.bytes)} of what was requested`;
  const scudo = others.find((t) => t.style === 1);
  const other = scudo.total === undefined ? "" : ` Scudo's default table of ${scudo.classes} ${verb} ${bytesText(scudo.total)}.`;
  return `A table of ${classesText(own.classes)} ${verb} ${bytesText(own.total)}${share}.${other}`;
}

function cardsOf({ kind, counts }) {
  const more = { "Different sizes": counts.sizes.length, "Large, in no figure here": counts.large };
  if (kind === "timeline") return { Requests: counts.requests, "Most bytes live at once": counts.mostLive, ...more };
  if (kind === "history") return { "Most blocks of each size": counts.blocks, "Their bytes": counts.bytes, ...more };
  return { "Requests counted": counts.blocks, "Bytes requested": counts.bytes, ...more };
}

function showLead() {
  $("lead").textContent = leadOf(tuner);
  showWords("claim", says(tuner.judged));
  const shown = Object.entries(cardsOf(tuner)).map(([title, value]) => `<div><dt>${title}</dt><dd>${grouped(value)}</dd></div>`);
  $("cards").innerHTML = shown.join("");
}

const cell = (words, more = "") => `<td${more}>${words}</td>`;

/** Fills a table with its headings, and with rows: a name and cells. */
function fillTable(id, headings, rows) {
  const head = headings.map((words) => `<th scope="col">${words}</th>`).join("");
  const body = rows.map(([name, ...cells]) => `<tr><th scope="row">${name}</th>${cells.join("")}</tr>`).join("");
  $(id).innerHTML = `<thead><tr>${head}</tr></thead><tbody>${body}</tbody>`;
}

/** What a table costs on a slot's counts, as cells: in bytes, as a share, and more. */
function costCells(slot, { total, unserved }, more = []) {
  if (total === undefined) return [cell(`does not serve ${bytesText(unserved)}`, ` colspan="${2 + more.length}"`)];
  return [cell(grouped(total)), cell(percent(total, isOverTime(slot) ? slot.total : slot.counts.bytes)), ...more];
}

function showTables() {
  const most = mostOf(tuner.tables.map((t) => t.total ?? 0));
  const barCell = (t) => cell(barOf(t.total, most, t.style), ' class="bar"');
  const rows = tuner.tables.map((t) => [escaped(t.name), cell(t.classes), ...costCells(tuner, t, [barCell(t)])]);
  const names = isOverTime(tuner) ? ["Footprint, bytes", "Of the first one's"] : ["Waste, bytes", "Of the requested bytes"];
  fillTable("tables", ["Table", "Classes", ...names, '<span class="unseen">As a bar</span>'], rows);
}

function showCurve() {
  const { tables, least, counts, classes, among } = tuner;
  const shown = tables.filter((t) => t.total !== undefined);
  const cost = isOverTime(tuner) ? "Footprint" : "Waste";
  drawCurve($("curve"), least, shown, `${cost} by the number of classes`, isOverTime(tuner) ? 0 : counts.bytes);
  $("curve-told").textContent = curveWords(tuner, among.step, among.forced);
  $("curve-key").innerHTML = shown.map((t) => `<li>${markOf(t.style)}${escaped(t.name)}</li>`).join("");
  fillTable("curve-table", ["Classes", `${cost}, bytes`], least.map((bytes, i) => [i + 1, cell(grouped(bytes))]));
  drawHistogram($("histogram"), counts.sizes, classes, classesOf(data.scudo));
}

const PARTS = 120;

/** The live blocks over time, of a history or a timeline. */
function showLayers() {
  $("over-time").hidden = !isOverTime(tuner);
  if ($("over-time").hidden) return;
  const layers = layersOf(tuner.classes, tuner.counts.heights(tuner.classes, PARTS));
  const isWhole = tuner.kind === "timeline";
  drawLayers($("layers"), layers, tuner.total, isWhole ? "events of the run" : "recorded moments");
  const parts = `one of ${layers[0]?.bytes.length ?? 0} equal parts of the run, and as high as the most blocks of each class in it`;
  const column = `A column is ${isWhole ? parts : "a recorded moment"}.`;
  $("layers-told").textContent = `${column} The footprint is the highest place of each class, added up.`;
  $("layers-key").innerHTML = layers.map(({ words, form }) => `<li>${squareOf(form)}${words}</li>`).join("");
}

/** For each class: its block, its sizes, what it serves, and what it loses or takes. */
function showClasses() {
  const rows = tuner.counts.byClass(tuner.classes).map(({ least, most, served, cost }) => {
    const cells = [`${grouped(least)}–${grouped(most)}`, grouped(served), grouped(cost), percent(cost, tuner.total)];
    return [grouped(most + GRANULE), ...cells.map((words) => cell(words))];
  });
  const names = isOverTime(tuner) ? ["Most blocks at once", "Bytes taken"] : ["Requests", "Bytes lost"];
  fillTable("classes", ["Block, bytes", "Sizes served", ...names, "Share"], rows);
}

/** What the engine says of the sheet as it stands, edited or not. */
async function judgedSheet() {
  const sheet = $("sheet").value.replace(/\n*$/, "\n");
  if (sheet === tuner.sheet && isBound(tuner.judged)) return tuner.judged;
  const isFit = /^footprint/m.test(sheet);
  if (isFit !== isOverTime(tuner)) return { refused: `This is a ${isFit ? "fit: it wants a history or a timeline" : "sheet: it wants a profile"}.` };
  return judge(tuner, sheet);
}

async function checkSheet() {
  if (!tuner.kind) return null;
  const judged = await judgedSheet();
  const [words, good] = [judged.refused ?? says(judged), !judged.refused && holds(judged)];
  tellVerdict("verdict", words, good);
  return { words, good };
}

/** A table that the engine took as C++ for LLVM's Scudo, as scripts/scudo_classes prints it, with notes in its comment. */
function scudoMap(classes, notes = []) {
  const granules = classes.filter((c) => c < LARGEST_CLASS);
  const lines = wrapped(granules.map((c) => `${c},`).join(" "), 75, "      ");
  const comment = notes.map((note) => `${wrapped(note, 120, "// ")}\n`).join("");
  const places = { COUNT: String(granules.length), NOTES: comment, GRANULES: lines };
  return data.map.text.replace(/COUNT|NOTES|GRANULES/g, (place) => places[place]);
}

/** Words in lines of at most so many columns, each with a prefix. */
const wrapped = (words, columns, prefix) =>
  words.match(new RegExp(`\\S.{0,${columns - prefix.length - 1}}(?= |$)`, "g")).map((line) => prefix + line).join("\n");

/** The map of the sheet, or of the class line, that stands in the editor: {text, told}, or {refused} where the engine does not take it. */
async function mapOfSheet() {
  const text = $("sheet").value;
  const [line, ...rest] = text.split("\n");
  const table = await ask("call", { command: "score", options: {}, first: line, input: "" });
  if (table.status > 1) return { refused: refusal(table) };
  const isLine = rest.every((it) => it === "");
  const judged = isLine ? {} : await judgedSheet();
  if (judged.refused) return judged;
  const classes = classesOf(line);
  if (!classes.some((c) => c < LARGEST_CLASS)) return { refused: `${data.map.noClass[0].toUpperCase()}${data.map.noClass.slice(1)}` };
  const largest = grouped(GRANULE * classes.at(-1) - GRANULE);
  const warnings = classes.at(-1) === LARGEST_CLASS ? [] : [data.map.nextOwn.replace("{size}", largest)];
  const told = isLine ? "No certificate came with this table." : says(judged);
  const notes = judged.verdict === "optimal" ? warnings : [...warnings, told];
  return { text: scudoMap(classes, notes), told: [told, ...warnings].join(" "), good: judged.verdict === "optimal" && !warnings.length };
}

async function saveMap() {
  const { refused, text, told, good } = await mapOfSheet();
  tellVerdict("verdict", refused === undefined ? told : `Nothing is saved. ${refused}`, good);
  if (refused === undefined) save(text, "tuned_map.inc");
}

$("limit").oninput = told(tune);
$("step").onchange = told(tune);
$("largest").onchange = told(tune);
$("own").onchange = told(() => tuner.kind && compare());
$("check").onclick = told(checkSheet);
$("restore").onclick = showSheet;
$("save-sheet").onclick = () => save($("sheet").value, isOverTime(tuner) ? "fitted.fit" : "tuned.sheet");
$("save-map").onclick = told(saveMap);
