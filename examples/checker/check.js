// Checks a certificate by the module docs/checker.wasm, in node, gjs or jsc:
//
//   node check.js check checker.wasm SHEET PROFILE        jsc check.js -- check-fit checker.wasm FIT TIMELINE
//
// With --claim after the command a second line says what was shown, and of what. A module beside which a manifest stands
// has to be that of the manifest; jsc can't compare them.
//
// The exit status: 0 'optimal'; 1 the verdict is no; 2 the words or a text are refused, an empty PROFILE or TIMELINE too;
// 3 a file can't be read, memory ran out, or the module is none or another one. jsc has no other than 0 and, of an
// exception, 3.
"use strict";

const MOST_INPUT = 67108864; // the bytes of a text
const USAGE = "check.js: it is `check [--claim] MODULE SHEET PROFILE`, or `check-fit [--claim] MODULE FIT HISTORY|TIMELINE`";
const FUNCTIONS = new Map([
  ["check", "check"],
  ["check --claim", "check_claim"],
  ["check-fit", "check_fit"],
  ["check-fit --claim", "check_fit_claim"],
]);
// of the module's ends: out of memory, and a call that is not as it has to be
const OUT_OF_MEMORY = 3, MISUSE = 5;

// What a function reads piece by piece, but at most one byte more than a text may have: gjs cuts the length of a file that
// it reads at once to 32 bits.
const readPieces = (readSome) => {
  const room = new Uint8Array(MOST_INPUT + 1);
  let length = 0;
  for (let piece = [0]; piece.length && length < room.length; length += piece.length) {
    piece = readSome(Math.min(room.length - length, 1 << 20));
    room.set(piece, length);
  }
  return room.subarray(0, length);
};

const readInNode = (path) => {
  const fs = require("fs");
  const file = fs.openSync(path);
  return readPieces((most) => {
    const piece = new Uint8Array(most);
    return piece.subarray(0, fs.readSync(file, piece));
  });
};

const readInGjs = (path) => {
  const stream = imports.gi.Gio.File.new_for_path(path).read(null);
  return readPieces((most) => stream.read_bytes(most, null).toArray());
};

const hosts = {
  node: () => ({
    words: process.argv.slice(2),
    read: readInNode,
    digest: (bytes) => require("crypto").createHash("sha256").update(bytes).digest("hex"),
    end: (status) => process.exit(status),
    print: (line) => require("fs").writeSync(1, `${line}\n`),
    say: console.error,
  }),
  gjs: () => ({
    words: ARGV,
    read: readInGjs,
    digest: (bytes) => imports.gi.GLib.compute_checksum_for_data(imports.gi.GLib.ChecksumType.SHA256, bytes),
    end: imports.system.exit,
    print,
    say: printerr,
  }),
  jsc: () => ({
    words: globalThis.arguments ?? [],
    read: (path) => readFile(path, "binary"),
    end: (status) => {
      if (status) throw new Error(`no, ${status}`);
    },
    print,
    say: printErr,
  }),
};
const host = hosts[typeof process === "object" ? "node" : typeof imports === "object" ? "gjs" : "jsc"]();

const refuse = (status, words) => {
  host.say(words);
  return status;
};

const manifestOf = (path) => {
  try {
    return String.fromCharCode(...host.read(`${path}.manifest`).subarray(0, 80));
  } catch {
    return "";
  }
};

const readModule = (path) => {
  const bytes = host.read(path);
  const [, wanted] = manifestOf(path).match(/^program ([0-9a-f]{64})\n/) ?? [];
  if (wanted && host.digest && host.digest(bytes) !== wanted) {
    throw new Error(`${path} is not the one of its manifest, and nothing runs it`);
  }
  return new WebAssembly.Module(bytes);
};

const put = (checker, bytes) => {
  const place = checker.take(bytes.length) >>> 0;
  if (place) new Uint8Array(checker.memory.buffer, place, bytes.length).set(bytes);
  return place;
};

const check = (words) => {
  const [engine, ...paths] = words.slice(-3);
  const name = FUNCTIONS.get(words.slice(0, -3).join(" "));
  if (!name) return refuse(2, USAGE);
  const texts = paths.map(host.read);
  const checker = new WebAssembly.Instance(readModule(engine), {}).exports;
  const long = texts.findIndex((text) => text.length > MOST_INPUT);
  if (long >= 0) return refuse(2, `check.js: ${paths[long]} has more than ${MOST_INPUT} bytes`);
  const places = texts.map((text) => put(checker, text));
  if (places.includes(0)) return refuse(OUT_OF_MEMORY, "check.js: out of memory");
  const end = checker[name](...texts.flatMap((text, at) => [places[at], text.length]));
  if (end === MISUSE) return refuse(2, `check.js: ${paths[1]} is empty`);
  const answer = new Uint8Array(checker.memory.buffer, checker.answer() >>> 0, checker.answer_length());
  if (answer.length) host.print(String.fromCharCode(...answer).trim());
  return end;
};

let status = 3;
try {
  status = check(host.words);
} catch (error) {
  host.say(`check.js: ${error}`);
}
host.end(status);
