// The sentences that say what is known of a table: filled from the words of scripts/mte_scripts/claim_words.py, which are in the page's data, and
// from what an engine said. What is judged is {kind, name, digest, verdict, numbers}: the kind is profile, history or timeline, the name and
// the digest are those of what was counted, the verdict is the engine's, or `between L` where `fit` found no certificate, and the numbers are those of
// its line `claim ..`, or of what `fit` printed.
"use strict";

const DIGITS = 16; // of a digest in a sentence

const filled = (name, places = {}) => (data.claims[name] ?? "").replace(/\{(\w+)\}/g, (_, place) => places[place]);

/** A name from outside as text in a sentence, which it can't end or go on with. */
const quotedName = (name) => `"${name.replace(/[\x22\x5c\x60]|(?! )[\p{C}\p{Z}]/gu, (c) => `\\u{${c.codePointAt(0).toString(16)}}`)}"`;

/** The digest of a text, or of bytes, by SHA-256, in hexadecimal digits. */
async function digestOf(text) {
  const whole = typeof text === "string" ? new TextEncoder().encode(text) : text;
  const bytes = await crypto.subtle.digest("SHA-256", whole);
  return [...new Uint8Array(bytes)].map((byte) => byte.toString(16).padStart(2, "0")).join("");
}

/** The numbers of a line `claim NAME N NAME N ..`. */
const numbersOf = (line) => Object.fromEntries([...line.matchAll(/ ([a-z]+) (\d+)/g)].map(([, name, value]) => [name, exactly(value)]));

/** Whether none of the tables costs less than this one; and whether the cost is a bound that this one may not reach. */
const holds = ({ verdict }) => verdict === "optimal";
const isBound = ({ verdict }) => verdict.startsWith("between ");

const havingWords = (forced) => (forced ? filled("having", { forced }) : "");
const givenWords = ({ name, digest }) => filled("input", { name: quotedName(name), digest: digest.slice(0, DIGITS), how: "" });

/** Among which tables none costs less than this one, or than the bound, on what, and what it costs. */
function claimWords(judged) {
  const { kind, numbers } = judged;
  const { limit, step, forced, large } = numbers;
  const most = filled(`limit.${limit === 1 ? "one" : "many"}`, { count: limit, block: String(GRANULE * step) });
  const nouns = ["size", "request", "snapshot", "event", "byte"];
  return filled(`${kind}.claim`, {
    ...Object.fromEntries(nouns.map((noun) => [`${noun}s`, counted(numbers[`${noun}s`] ?? 0, noun)])),
    tables: filled("tables", { limit: most, given: givenWords(judged), having: havingWords(forced) }),
    cost: bytesText(kind === "profile" ? numbers.waste : numbers.footprint),
    large: large ? filled("large", { large: counted(large, "large one") }) : "",
  });
}

/** What the verdict means, as Claim.says of scripts/mte_scripts/claims.py has it. */
function says(judged) {
  const { kind, verdict, numbers } = judged;
  const command = kind === "profile" ? "check" : "check-fit";
  if (isBound(judged)) return filled("between", { cost: bytesText(numbers.takes), claim: claimWords(judged) });
  if (holds(judged)) return filled("says", { command, claim: claimWords(judged) });
  const words = kind === "profile" ? { sheet: "sheet", costs: "wastes" } : { sheet: "fit", costs: "takes" };
  const meaning = filled(`refusal.${verdict.split(" ")[1]}`, { counts: kind, ...words });
  return filled("refused", { command, verdict, given: givenWords(judged), meaning }).trimEnd();
}

/** Puts words into an element; those between backquotes are code. */
function showWords(id, words) {
  $(id).innerHTML = escaped(words).replace(/`([^`]*)`/g, "<code>$1</code>");
}

/** The same of what an engine said of a sheet. */
function tellVerdict(id, words, good) {
  showWords(id, words);
  $(id).className = good ? "good" : "bad";
}

/** What the curve over the number of classes shows. */
const curveWords = ({ kind, name }, step, forced) =>
  filled(`${kind}.curve`, { name: quotedName(name), block: String(GRANULE * step), having: havingWords(forced) });
