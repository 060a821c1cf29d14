#!/usr/bin/env node
// The whole program in Node, without a compiler: `node program_host.js program.wasm.gz SHA-256 WORDS.. < INPUT`.
// MTE_TOOL_CLOSED has the numbers of the standard streams that are closed, in whose place Node opens others. Nothing here
// is proved.
"use strict";
const fs = require("fs");
const os = require("os");

const [file, sum, ...words] = process.argv.slice(2);
const closed = process.env.MTE_TOOL_CLOSED ?? "";
const errors = os.constants.errno;
let memory;
let error = 0;

// The words as bytes: Node itself has them as texts, in which what is no UTF-8 is lost.
function wordBytes() {
  try {
    const all = fs.readFileSync("/proc/self/cmdline");
    const found = [];
    for (let at = 0, end; at < all.length; at = end + 1) {
      end = all.indexOf(0, at);
      found.push(all.subarray(at, end));
    }
    return found.slice(found.length - words.length);
  } catch {
    return words.map((word) => Buffer.from(word));
  }
}

function engine() {
  const bytes = require("zlib").gunzipSync(fs.readFileSync(file));
  const found = require("crypto").createHash("sha256").update(bytes).digest("hex");
  if (found !== sum) throw new Error("it is not the one of its manifest, and nothing runs it");
  return new WebAssembly.Module(bytes);
}

const part = (at, length) => new Uint8Array(memory.buffer, Number(at), Number(length));
const failed = (number) => ((error = number), -1n);

function tried(fd, call) {
  if (closed.includes(String(fd))) return failed(errors.EBADF);
  try {
    return BigInt(call());
  } catch (fault) {
    return failed(-(fault.errno ?? -errors.EIO));
  }
}

const texts = [Buffer.from("mte_tool"), ...wordBytes()];
const host = {
  read: (fd, to, length) => tried(fd, () => fs.readSync(fd, part(to, length))),
  write: (fd, from, length) => tried(fd, () => fs.writeSync(fd, part(from, length))),
  lseek: () => failed(errors.ESPIPE),
  isatty: (fd) => Number(!closed.includes(String(fd)) && require("tty").isatty(fd)),
  word: (number, to, room) => {
    const text = texts[Number(number)];
    if (!text) return -1n;
    if (text.length > room) return -2n;
    part(to, text.length).set(text);
    return BigInt(text.length);
  },
  errno: () => error,
};

let run;
try {
  const instance = new WebAssembly.Instance(engine(), { host });
  ({ memory, run } = instance.exports);
} catch (fault) {
  fs.writeSync(2, `mte_tool: ${file} can't be run by Node ${process.version}: ${fault.message}\n`);
  process.exit(3);
}
try {
  process.exitCode = run();
} catch (fault) {
  fs.writeSync(2, `mte_tool: the engine trapped: ${fault.message}\n`);
  process.abort();
}
