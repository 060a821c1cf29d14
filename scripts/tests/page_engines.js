// Runs the worker of a page in node: `node page_engines.js PAGE < CASES`. A case is {command, options, input}, with {first} of a command
// over two texts, and is answered by {status, text}; or {line, trace, options}: a replay, which is answered by what the page shows after each
// event: the picture, what it knows of slots, variables and quarantine, and the granules that it frames. page_heap.py compares it with
// the model of the heap. Both are lists in JSON.
"use strict";

const crypto = require("crypto");
const fs = require("fs");
const path = require("path");
const source = (name) => fs.readFileSync(path.join(__dirname, name), "utf8");
const OF_WORKER = ["formats", "engine", "words", "users", "events", "worker"].map((name) => `../../web/${name}.js`);
const { ANSWERS, eventOf, reported, replayOf } = new Function("onmessage", `${OF_WORKER.map(source).join("\n")}
return { ANSWERS, eventOf, reported, replayOf: () => replay };`)();

/** What the page says of a slot. */
const words = ({ number, start, granules, state, size, tag, generation, user, made, freed }) =>
  [number, start, granules, state, size, tag, generation, ...(generation ? [user, made, freed] : [])].join(" ");

const digest = (...parts) => parts.reduce((hash, part) => hash.update(part), crypto.createHash("md5")).digest("hex");

/** A frame in words. */
const framed = (frame) =>
  frame ? [frame.granule, frame.last, ...(frame.fault ? ["fault", frame.memory, frame.pointer] : [])].join(" ").trim() : "none";

/** What holds after the events so far, in the words of page_heap.py. */
function now({ steps, users }, slots, variables) {
  const { tags, kinds } = steps.draw();
  return {
    picture: digest(tags, kinds),
    slots: digest(slots.map(({ end }) => words(users.slotAt(end))).join("\n")),
    variables: variables.map((v) => `${v} ${steps.variable(v)}`).join(" "),
    queue: users.queue().map(({ number }) => number).join(" "),
  };
}

/** What the page shows after k events, but the picture, and what it says of each slot, without anything that it kept. */
function shown(replay, slots, k) {
  replay.kept.clear();
  const { kinds, tags, queue, ...told } = ANSWERS.show({ k });
  const waiting = queue.map(({ number, bytes, freed }) => [number, bytes, freed]);
  return JSON.stringify([told, waiting, slots.map(({ start }) => words(ANSWERS.slot({ k, granule: start })))]);
}

/** The number of the slot over each granule, which slack has not, and the first and the last granule of each slot. */
function slotsOf({ steps }, granules) {
  const numbers = Array.from({ length: granules }, (_, g) => steps.slot(g)?.number);
  const slots = [];
  numbers.forEach((number, g) => {
    if (number !== undefined) slots[number] = { start: slots[number]?.start ?? g, end: g };
  });
  return { numbers, slots };
}

/** What the page shows after each event of a trace; or what is wrong with it, if on the way back it shows anything else. */
async function follow({ line, trace, options }) {
  const lines = trace.split("\n").slice(0, -1);
  await ANSWERS.trace({ input: trace });
  ANSWERS.replay({ line, options });
  const replay = replayOf();
  const { numbers, slots } = slotsOf(replay, options.granules);
  const set = [];
  const after = [{ ...now(replay, slots, set), report: null, frame: "none" }];
  const onTheWay = [shown(replay, slots, 0)];
  for (let k = 1; k <= lines.length; k++) {
    const { v } = eventOf(lines[k - 1]);
    if (!set.includes(v)) set.push(v);
    const { marks } = ANSWERS.show({ k });
    const report = reported(replay.report, k)?.replace(/^data.*/, "") || null;
    after.push({ ...now(replay, slots, [...set].sort((a, b) => a - b)), report, frame: framed(marks) });
    onTheWay.push(shown(replay, slots, k));
    if (replay.steps.done !== k) return { wrong: `there is no event ${k}` };
  }
  if (replay.steps.go()) return { wrong: "there is an event too many" };
  for (let k = lines.length; k >= 0; k--) if (shown(replay, slots, k) !== onTheWay[k]) return { wrong: `event ${k} is shown otherwise on the way back` };
  return { granules: digest(numbers.map((number) => number ?? "none").join(" ")), after };
}

(async () => {
  const page = fs.readFileSync(process.argv[2], "utf8");
  const data = JSON.parse(/<script type="application\/json" id="data">([^]*?)<\/script>/.exec(page)[1]);
  await ANSWERS.start({ tool: Buffer.from(data.tool, "base64"), steps: Buffer.from(data.steps, "base64") });
  const answers = [];
  for (const it of JSON.parse(fs.readFileSync(0, "utf8"))) answers.push(it.trace === undefined ? ANSWERS.call(it) : await follow(it));
  process.stdout.write(JSON.stringify(answers));
})();
