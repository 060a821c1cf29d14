// What a profile, a history or a timeline counts, as the engines took it: its sizes, and what classes serve of them.
"use strict";

const sumOf = (numbers) => numbers.reduce((sum, n) => sum + n, 0);
/** The greatest of numbers, of which there may be more than a call takes. */
const mostOf = (numbers) => numbers.reduce((most, n) => (n > most ? n : most), 0);
/** The sum of the products of pairs of whole numbers. */
const sumOfProducts = (pairs) => exactly(pairs.reduce((sum, [one, other]) => sum + BigInt(one) * BigInt(other), 0n));
const wordOf = (text) => /^[^ \n]*/.exec(text)[0];

/** What a text is by its first word: a profile, a history, a timeline, or null. */
function kindOf(text) {
  const word = wordOf(text);
  if (word === "snapshots") return "history";
  if (word === "timeline") return "timeline";
  return word === "large" || /^\d+$/.test(word) || text === "" ? "profile" : null;
}

/** For each class the least and the greatest size that it serves. */
const spansOf = (classes) => classes.map((c, i) => [i ? GRANULE * classes[i - 1] - GRANULE + 1 : 0, GRANULE * c - GRANULE]);

/** What both have: the sizes, each with its count, over time that of its most blocks; and for each class its heights at each moment. */
class Counts {
  constructor(kind, text) {
    Object.assign(this, { kind, text, large: 0 });
  }

  /** Keeps the sizes, and what they come to. */
  keep(sizes) {
    this.sizes = sizes;
    this.blocks = sumOf(sizes.map(([, count]) => count));
    this.bytes = sumOfProducts(sizes);
  }

  /** For each class its sizes, what it serves of them, and what it loses; over time, the most of its blocks at once, and what they take. */
  byClass(classes) {
    const heights = this.heights(classes, 1);
    return spansOf(classes).map(([least, most], i) => {
      const served = mostOf(heights[i]);
      const losses = this.sizes.filter(([size]) => size >= least && size <= most).map(([size, count]) => [count, most - size]);
      return { least, most, served, cost: sumOfProducts(this.kind === "profile" ? losses : [[most + GRANULE, served]]) };
    });
  }
}

/** A profile or a history: for each size its counts, one or one for each snapshot. */
class Rows extends Counts {
  constructor(kind, text) {
    super(kind, text);
    this.lines = [];
    for (const line of text.split("\n")) {
      const [size, ...words] = line.split(" ");
      const counts = words.map(Number);
      if (size === "large") this.large = mostOf(counts);
      else if (line !== "" && size !== "snapshots") this.lines.push([Number(size), counts]);
    }
    this.keep(this.lines.map(([size, counts]) => [size, mostOf(counts)]));
  }

  /** For each class its blocks at each moment, or the requests that it serves; of one that serves nothing no number. */
  heights(classes) {
    return spansOf(classes).map(([least, most]) => {
      const mine = this.lines.filter(([size]) => size >= least && size <= most).map(([, counts]) => counts);
      return (mine[0] ?? []).map((_, i) => sumOf(mine.map((counts) => counts[i])));
    });
  }
}

/** A timeline: its events, SIZE + 1 for a request and that below 0 for a free, and 0 for the large ones. */
class Events extends Counts {
  constructor(kind, text) {
    super(kind, text);
    Object.assign(this, { requests: 0, mostLive: 0 });
    const events = new Int16Array(text.length >> 1);
    const [now, most] = [new Int32Array(LARGEST_SIZE + 1), new Int32Array(LARGEST_SIZE + 1)];
    let [count, large, live] = [0, 0, 0];
    for (const [, minus, word] of text.matchAll(/^(-?)(\d+|large)$/gm)) {
      const [sign, size] = [minus ? -1 : 1, Number(word)];
      if (word === "large") {
        large += sign;
        this.large = Math.max(this.large, large);
        count += 1;
        continue;
      }
      events[count++] = sign * (size + 1);
      now[size] += sign;
      most[size] = Math.max(most[size], now[size]);
      live += sign * size;
      this.mostLive = Math.max(this.mostLive, live);
      if (!minus) this.requests += 1;
    }
    this.events = events.slice(0, count);
    this.keep([...most.keys()].filter((size) => most[size]).map((size) => [size, most[size]]));
  }

  /** For each class the most of its blocks in each of so many equal parts of the events, or of fewer where there are fewer. */
  heights(classes, parts) {
    const classOf = new Uint8Array(LARGEST_SIZE + 2);
    spansOf(classes).forEach(([least, most], i) => classOf.fill(i, least + 1, most + 2));
    const columns = Math.min(parts, this.events.length);
    const [now, found] = [new Int32Array(classes.length), classes.map(() => [])];
    for (let part = 1, at = 0; part <= columns; part++) {
      const most = now.slice();
      for (const end = Math.floor((part * this.events.length) / columns); at < end; at++) {
        const event = this.events[at];
        if (event > 0) {
          const c = classOf[event];
          now[c] += 1;
          if (now[c] > most[c]) most[c] = now[c];
        } else if (event < 0) now[classOf[-event]] -= 1;
      }
      found.forEach((column, i) => column.push(most[i]));
    }
    return found;
  }

  /** The history of some moments, each the number of events before it, ascending. */
  historyAt(moments) {
    const now = new Int32Array(LARGEST_SIZE + 1);
    const rows = new Map(this.sizes.map(([size]) => [size, []]));
    let at = 0;
    for (const moment of moments) {
      for (; at < moment; at++) {
        const event = this.events[at];
        if (event) now[Math.abs(event) - 1] += Math.sign(event);
      }
      for (const [size, counts] of rows) counts.push(now[size]);
    }
    const lines = [...rows].filter(([, counts]) => mostOf(counts)).map(([size, counts]) => `${size} ${counts.join(" ")}\n`);
    return `snapshots ${moments.length}\n${lines.join("")}`;
  }
}

/** What a text of this kind counts. */
const countsOf = (kind, text) => (kind === "timeline" ? new Events(kind, text) : new Rows(kind, text));
