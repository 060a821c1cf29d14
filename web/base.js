// What the page's own scripts stand on: its elements, its data, its workers, and the line in which it says what goes on.
"use strict";

const $ = (id) => document.getElementById(id);
const fromBase64 = (text) => Uint8Array.from(atob(text), (c) => c.charCodeAt(0));
const data = JSON.parse($("data").textContent);
const waiting = new Map();
/** The one that answers what is seen, and the one that reads reports meanwhile. */
const [SHOWS, READS] = [0, 1];
let asked = 0;

/** Asks a worker, and returns its answer. What is TAKEN leaves the page without a copy. */
function ask(what, words, worker = SHOWS, taken = []) {
  asked += 1;
  const id = asked;
  workers[worker].postMessage({ id, what, words }, taken);
  return new Promise((answer, refuse) => waiting.set(id, { answer, refuse }));
}

const workerSource = URL.createObjectURL(new Blob([$("worker-source").textContent], { type: "text/javascript" }));
const workers = [SHOWS, READS].map(() => {
  const worker = new Worker(workerSource);
  worker.onmessage = ({ data: { id, answer, error } }) => {
    const { answer: take, refuse } = waiting.get(id);
    waiting.delete(id);
    if (error === undefined) take(answer);
    else refuse(new Error(error));
  };
  worker.onerror = (event) => say(`The engines stopped: ${event.message}. Load the page again.`, true);
  return worker;
});

/** Puts words into an element, which gets this class of the style. */
const tell = (id, words, look = "") => Object.assign($(id), { textContent: words, className: look });

/** An action that tells its error, in place of none. */
const told = (action) => (...words) => Promise.resolve(action(...words)).catch((error) => say(`That failed: ${error.message}.`, true));

/** An action of which one runs at a time. What is wished meanwhile is done once, at the end. */
function oneAtATime(action) {
  let [running, isWished] = [null, false];
  const run = async () => {
    try {
      while (isWished) {
        isWished = false;
        await action();
      }
    } finally {
      running = null;
    }
  };
  return () => {
    isWished = true;
    return (running ??= run());
  };
}

const said = { tune: { words: "", bad: false }, heap: { words: "", bad: false } };
const shownView = () => ($("view-tune").hidden ? "heap" : "tune");

/** Says something above a view: the one that is shown, or this one. */
function say(words, bad = false, view = shownView()) {
  said[view] = { words, bad };
  if (view !== shownView()) return;
  tell("status", words, bad ? "bad" : "");
}

let works = 0;

/** Shows how far a work of so many steps is, in place of what a view has answered before. */
async function withBar(view, words, steps, action) {
  const [bar, answers] = [$("work"), $(`view-${view}`)];
  works += 1;
  tell("work-told", words);
  Object.assign($("steps"), { max: steps, value: 0 });
  bar.hidden = false;
  answers.setAttribute("aria-busy", "true");
  try {
    return await action();
  } finally {
    works -= 1;
    bar.hidden = works === 0;
    if (bar.hidden) answers.removeAttribute("aria-busy");
  }
}

const endStep = () => ($("steps").value += 1);
