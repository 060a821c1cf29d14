// What the page says in sentences: numbers, lines of the report, verdicts, errors of inputs.
"use strict";

/** A whole number, from digits or a BigInt: a BigInt where a Number would be rounded. */
const exactly = (number) => (Number.isSafeInteger(Number(number)) ? Number(number) : BigInt(number));
const grouped = (number) => number.toLocaleString("en");
const counted = (number, word) => `${grouped(number)} ${word}${number === 1 ? "" : "s"}`;
const bytesText = (n) => counted(n, "byte");

const KINDS = ["slack", "header", "tail", "dead", "live"];
// the report calls a granule of a live chunk `other`
const KIND_WORDS = { slack: "slack", header: "a header", tail: "a tail", dead: "of a dead chunk", live: "of a live chunk", other: "of a live chunk" };

/** A line of the report in a sentence. */
function reportWords(report) {
  const w = report.split(" ");
  if (w[0] === "data") return `It reads ${w[1].replace(/(..)(?=.)/g, "$1 ")}.`;
  if (w[0] === "fault" && w[1] === "unmapped") return "Fault: the access is not mapped.";
  if (w[0] === "fault") return `Tag fault: granule ${w[3]} has tag ${w[5]}, the pointer tag ${w[7]}. The granule is ${KIND_WORDS[w[9]]}.`;
  return `${w[0] === "null" ? "The request is refused" : "Refused"}: ${CAUSES[w[1]]}.`;
}

/** A fault of an input in a sentence, with its line. */
function faultWords(text) {
  const [, code, name, , line] = /^error (\d+) (\w+)( line (\d+))?/.exec(text.trim()) ?? [];
  if (!code) return { words: text.trim() || "the engine gave no answer", line: 0 };
  return { words: `${line ? `Line ${line}: ` : ""}${INPUT_CODES[code] ?? name} (${code} ${name}).`, line: Number(line ?? 0) };
}

/** Whether all bytes are letters, digits, signs, spaces and newlines. A loop of its own is several times faster than `every` here. */
function isText(bytes) {
  for (let i = 0; i < bytes.length; i++) if (bytes[i] !== 10 && (bytes[i] < 32 || bytes[i] > 126)) return false;
  return true;
}

// How files of other tools begin, each byte as a character. `profile_program --import` reads them.
const OTHER_TOOLS = [
  [/^\x1f\x8b|^\x28\xb5\x2f\xfd/, "is packed, as heaptrack and Go write their files"],
  [/^heap profile:|^heap_v2\//, "looks like a heap profile of gperftools, jemalloc or Go"],
  [/^v [\da-f]+ [\da-f]+\n/, "looks like a record of heaptrack"],
  [/^\{\s*"dhatFileVersion"/, "looks like the JSON of DHAT"],
  [/\{\s*"jemalloc"\s*:/, "looks like statistics of jemalloc"],
  [/^<malloc version="scudo|^Stats: SizeClassAllocator/, "looks like statistics of Scudo"],
  [/^\x0a[\0-\x7f]\x08/, "looks like a heap profile of pprof"],
];

/** What a file or a text of this name is, if it begins as one of another tool does, and what makes a profile of it; else null. */
function otherTool(name, begin) {
  const found = OTHER_TOOLS.find(([pattern]) => pattern.test(begin));
  return found ? `${name} ${found[1]}. The page takes the profile that \`${data.importer}\` makes of it.` : null;
}

/** Why the bytes of a file are no text of mte_tool, with what mends it. */
function notText(bytes) {
  const begins = (...marks) => marks.every((mark, i) => bytes[i] === mark);
  if (begins(0xff, 0xfe) || begins(0xfe, 0xff)) return "it is UTF-16. Save it as plain ASCII or UTF-8";
  if (begins(0xef, 0xbb, 0xbf)) return "it begins with a byte order mark (BOM). Save it without";
  const line = bytes.subarray(0, bytes.indexOf(10) + 1);
  if (line.at(-2) === 13 && isText(line.subarray(0, -2)))
    return "its lines end with a carriage return, as on Windows (CRLF). Save it with the line ends of Unix (LF)";
  return "it has bytes other than letters, digits, spaces and newlines";
}
