// The page: its tabs, and the files and texts that it takes.
"use strict";

const EXAMPLES = {
  "an overflow": "malloc 0 40\nmalloc 1 40\nstore 0 0 40 11\nstore 0 40 8 22\nstore 0 48 8 33\nstore 0 64 8 44\n",
  "a use after free": "malloc 0 40\nstore 0 0 40 11\nmalloc 1 40\nfree 0\nload 0 0 8\nstore 0 8 8 22\nload 1 0 8\n",
  "a use after the slot is given out again":
    "malloc 0 200\nstore 0 0 64 11\nfree 0\nmalloc 1 200\nfree 1\nmalloc 2 200\nstore 2 0 64 22\nload 0 0 8\nload 1 0 8\nload 2 0 8\n",
  "a double free": "malloc 0 24\nmalloc 1 24\nfree 0\nfree 0\nmalloc 2 24\nfree 0\n",
  "a realloc that moves":
    "malloc 0 24\nstore 0 0 24 11\naddg 1 0 0 0\nrealloc 0 100\nload 0 0 24\nload 1 0 8\nfree 1\nrealloc 0 90\nload 0 88 2\n",
  "errors that are let pass": "malloc 0 40\nstore 0 40 8 11\nstore 0 44 4 22\nload 0 47 1\nload 0 48 1\n",
};

const MOST_BEGIN = 4096; // bytes by which a file of another tool is known
const MOST_EDITED = 500000; // characters of a text in an editor

function show(view) {
  for (const name of ["tune", "heap"]) {
    $(`view-${name}`).hidden = name !== view;
    $(`tab-${name}`).setAttribute("aria-selected", String(name === view));
    $(`tab-${name}`).tabIndex = name === view ? 0 : -1;
  }
  say(said[view].words, said[view].bad);
  showSlots();
  showPictures();
  $("linked").hidden = true;
}

function save(text, name) {
  const link = document.createElement("a");
  link.href = URL.createObjectURL(new Blob([text], { type: "text/plain" }));
  link.download = name;
  link.click();
  setTimeout(() => URL.revokeObjectURL(link.href), 1000);
}

/** Takes a trace, a text or a file, and what it requests. */
async function takeBoth(trace, name) {
  show("heap");
  if (await takeTrace(trace, name)) await takeRequests();
}

/** Takes a text by what its first word says it is. */
async function takeText(text, name) {
  const word = wordOf(text);
  if (isLink(text)) return openLink(text.trim().replace(/^[^#]*/, ""));
  if (word === "classes") return takeSheet(text, name);
  if (EVENTS.test(text)) return takeBoth(text, name);
  if (kindOf(text) === null) {
    const says = `${name} is no profile, history, timeline, trace, sheet or link: its first word is "${word.slice(0, 40)}".`;
    return say(otherTool(name, text.slice(0, MOST_BEGIN)) ?? says, true);
  }
  show("tune");
  return takeCounts(text, name);
}

async function takeSheet(text, name) {
  show("tune");
  if (!tuner.kind) return say(`${name} is a sheet: it is checked against a profile, a history or a timeline, so take one first.`, true);
  const isLine = !/^limit/m.test(text);
  say(`${name}: a ${isLine ? "class line" : "sheet"}.`);
  $("sheet").value = text;
  if (!isLine) return checkSheet();
  [$("own").value] = text.split("\n");
  return compare();
}

async function takeFile(file) {
  if (!file) return undefined;
  $("example").value = "";
  if (file.size > MOST_INPUT) return say(`${file.name} has ${grouped(file.size)} bytes; an input has at most ${grouped(MOST_INPUT)}.`, true);
  // a long trace goes to the engines as it is
  if (file.size > MOST_EDITED && EVENTS.test(await file.slice(0, 80).text())) return takeBoth(file, file.name);
  const bytes = new Uint8Array(await file.arrayBuffer());
  if (isText(bytes)) return takeText(new TextDecoder().decode(bytes), file.name);
  const begin = String.fromCharCode(...bytes.subarray(0, MOST_BEGIN));
  return say(otherTool(file.name, begin) ?? `${file.name} is no text of mte_tool: ${notText(bytes)}.`, true);
}

/** Takes what was pasted outside of a field, a file or a text. */
function takePasted(event) {
  if (event.target.matches?.("textarea, input")) return;
  const [file] = event.clipboardData.files;
  const text = event.clipboardData.getData("text/plain").replaceAll("\r\n", "\n");
  if (!file && !text) return;
  event.preventDefault();
  if (file) told(takeFile)(file);
  else told(takeText)(text, "what was pasted");
}

/** Puts a text, or a file, into an editor, and returns whether it is too long for one: none is fast with a million lines. */
function putText(id, text) {
  const isLong = typeof text !== "string" || text.length > MOST_EDITED;
  $(id).value = isLong ? "" : text;
  $(id).placeholder = isLong ? "The text is too long for the editor. Another can be written here." : "";
  return isLong;
}

/** Puts what is looked at into the editor of texts, if that is open. */
function showText() {
  if ($("typed").hidden || document.activeElement === $("text")) return;
  putText("text", tuner.counts?.text ?? "");
  $("text-told").textContent = "";
}

/** Opens the editor of texts, or closes it. */
function showTyped(isOpen) {
  $("typed").hidden = !isOpen;
  $("type").setAttribute("aria-expanded", String(isOpen));
  if (!isOpen) return;
  showText();
  $("text").focus();
}

/** Takes the editor's text, whole. */
function takeTyped() {
  $("example").value = "";
  return takeText($("text").value, "your text");
}

/** Takes the editor's text while it is written, as far as the engines accept it. A trace has an editor of its own, so it waits for the button. */
async function followTyped() {
  const text = $("text").value;
  if (kindOf(text) === null || text === "" || $("view-tune").hidden) return;
  const tellFault = (words) => tell("text-told", words, "bad");
  if (await takeCounts(text, "your text", tellFault)) tellFault("");
}

$("type").onclick = () => showTyped($("typed").hidden);
$("take").onclick = told(takeTyped);
let waits = null;
$("text").oninput = () => {
  clearTimeout(waits);
  waits = setTimeout(told(followTyped), 300);
};
$("text").onkeydown = (event) => {
  if (event.key === "Enter" && (event.ctrlKey || event.metaKey)) told(takeTyped)();
};
document.addEventListener("paste", takePasted);

document.addEventListener("dragover", (event) => {
  event.preventDefault();
  $("drop").classList.add("over");
});
document.addEventListener("dragleave", () => $("drop").classList.remove("over"));
document.addEventListener("drop", (event) => {
  event.preventDefault();
  $("drop").classList.remove("over");
  told(takeFile)(event.dataTransfer.files[0]);
});
$("file").onchange = () => told(takeFile)($("file").files[0]);

const optionsOf = (examples) => Object.keys(examples).map((name) => `<option>${escaped(name)}</option>`).join("");
const groupOf = (label, examples) => `<optgroup label="${label}">${optionsOf(examples)}</optgroup>`;
$("example").innerHTML = `<option value="">–</option>${groupOf("tables", data.examples)}${groupOf("the heap", EXAMPLES)}`;
$("example").onchange = () => {
  const name = $("example").value;
  if (name) told(takeText)(data.examples[name] ?? EXAMPLES[name], name);
};

for (const [view, other] of [["tune", "heap"], ["heap", "tune"]]) {
  $(`tab-${view}`).onclick = () => show(view);
  $(`tab-${view}`).onkeydown = (event) => {
    if (event.key !== "ArrowLeft" && event.key !== "ArrowRight") return;
    show(other);
    $(`tab-${other}`).focus();
  };
}
addEventListener("resize", showPictures);

const takeRequests = () => takeCounts(watched.profile, `the requests of ${watched.of}`);

/** What the page begins with: what it was made with, or examples. */
async function begin() {
  const { options: { limit = classesOf(data.scudo).length, step = 1, largest = false } = {}, profile, trace, replay } = data.given;
  const [first] = Object.keys(data.examples);
  const example = { name: "a use after free", text: EXAMPLES["a use after free"] };
  [$("limit").value, $("step").value, $("largest").checked] = [limit, step, largest];
  if (location.hash.startsWith(LINK_MARK) && (await openLink(location.hash))) {
    if (shownView() === "heap") await takeRequests();
    else await takeTrace(example.text, example.name);
    return;
  }
  const refused = said[shownView()];
  await takeCounts(profile?.text ?? data.examples[first], profile?.name ?? first);
  const { text, name } = trace ?? example;
  if (replay) {
    await takeGiven(text, name, replay, `, with ${counted(replay.notes.length, "error")} of the program`);
    return show("heap");
  }
  if (trace && !profile) await takeText(text, name);
  else await takeTrace(text, name);
  if (location.hash === "#heap") show("heap");
  if (refused.bad) say(refused.words, true);
}

async function start() {
  show("tune");
  const modules = { tool: fromBase64(data.tool), steps: fromBase64(data.steps) };
  for (const [name, bytes] of Object.entries(modules)) {
    if ((await digestOf(bytes)) !== data.digests[name]) throw new Error("an engine has other bytes than the page was made with");
  }
  await Promise.all([SHOWS, READS].map((worker) => ask("start", modules, worker)));
  await begin();
  performance.mark("ready");
  document.body.dataset.ready = "yes";
}

start().catch((error) => {
  say(`The page could not start: ${error.message}.`, true);
  document.body.dataset.ready = "failed";
});
