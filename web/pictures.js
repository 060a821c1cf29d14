// The curve, the live blocks over time and the histogram, as the inner text of an SVG.
"use strict";

const escaped = (text) => String(text).replace(/[&<>"]/g, (c) => ({ "&": "&amp;", "<": "&lt;", ">": "&gt;", '"': "&quot;" })[c]);
const short = (x) => String(Math.round(x * 10) / 10);
const shortLevel = (x) => String(Number(x.toPrecision(3)));
const classesText = (n) => `${n} class${n === 1 ? "" : "es"}`;
const TICKS = [[16, "16"], [64, "64"], [256, "256"], [1024, "1 KiB"], [4096, "4 KiB"], [16384, "16 KiB"]];
const MARKS = ["-6,0 0,-6 6,0 0,6", "-5,-5 5,-5 5,5 -5,5", "0,-6 6,5 -6,5", "0,6 6,-5 -6,-5", "-7,-2.5 7,-2.5 7,2.5 -7,2.5"];

/** The mark of a table, for a key. */
const markOf = (style) => `<svg viewBox="-7 -7 14 14" aria-hidden="true"><polygon points="${MARKS[style]}" fill="var(--c${style})"/></svg>`;

/** A number as a bar of a table, beside that of the most. */
const barOf = (number, most, style) =>
  `<svg viewBox="0 0 100 10" preserveAspectRatio="none" aria-hidden="true"><rect width="${short((100 * Number(number)) / (Number(most) || 1))}" height="10" fill="var(--c${style})"/></svg>`;

function byteText(n, digits = 3) {
  const [unit, name] = [[1 << 30, "GiB"], [1 << 20, "MiB"], [1 << 10, "KiB"], [1, "bytes"]].find(([of]) => n >= of) ?? [1, "bytes"];
  return `${(n / unit).toLocaleString("en", { maximumSignificantDigits: digits })} ${name}`;
}

/** A round number, of which up to five make the top. */
function roundStep(top) {
  const ten = 10 ** Math.floor(Math.log10(top / 5));
  return [1, 2, 2.5, 5, 10].map((n) => n * ten).find((step) => step >= top / 5);
}

/** A picture with a vertical scale of bytes, up to MOST and some room. It begins at 0, or where LOW, the least that is drawn, is above half
 * of MOST, at a round number near LOW. Where OF is given, the levels are its percents. */
class Picture {
  constructor(svg, height, most, room, of, low = 0) {
    const width = Math.max(280, Math.min(1000, Math.round(svg.parentElement.clientWidth || 760)));
    Object.assign(this, { svg, width, height, left: 64, right: width - 12, upper: 12, lower: height - 46, parts: [] });
    [this.wide, this.high] = [this.right - this.left, this.lower - this.upper];
    const unit = of ? Number(of) / 100 : 1024 ** Math.floor(Math.log(Math.max(1, Number(most))) / Math.log(1024));
    const from = Number(low) > Number(most) / 2 && Number(low) < Number(most) ? Number(low) : 0;
    this.top = from + room * (Number(most) - from) || unit;
    const step = roundStep((this.top - from) / unit);
    const first = Math.floor(from / unit / step);
    const digits = Math.max(3, Math.ceil(Math.log10((first + 6) * step) - Math.log10(step)) + 1);
    this.base = first * step * unit;
    for (let at = first; at * step * unit <= this.top; at += 1) {
      const [level, y] = [at * step, this.y(at * step * unit)];
      this.parts.push(`<path class="${at === first ? "axis" : "gridline"}" d="M${this.left} ${short(y)}H${this.right}"/>`);
      this.text(this.left - 6, y + 4, of ? `${shortLevel(level)}%` : level ? byteText(level * unit, first ? digits : 3) : "0", "end");
    }
  }

  y(bytes) {
    return this.lower - (this.high * (Number(bytes) - this.base)) / (this.top - this.base);
  }

  text(x, y, words, anchor = "middle") {
    this.parts.push(`<text x="${short(x)}" y="${short(y)}" text-anchor="${anchor}">${escaped(words)}</text>`);
  }

  mark(style, x, y, title) {
    const place = `transform="translate(${short(x)} ${short(y)})"`;
    this.parts.push(`<polygon points="${MARKS[style]}" ${place} fill="var(--c${style})"><title>${escaped(title)}</title></polygon>`);
  }

  finish(label) {
    this.svg.setAttribute("viewBox", `0 0 ${this.width} ${this.height}`);
    this.svg.setAttribute("aria-label", label);
    this.svg.innerHTML = this.parts.join("");
  }
}

/** The least total by the number of classes, and each table as a point {name, classes, total, style}. Where OF is given, the levels are its
 * percents, and else bytes. */
function drawCurve(svg, least, tables, label, of) {
  const highest = Math.max(...[least[Math.min(7, least.length - 1)] ?? 0, ...tables.map((t) => t.total)].map(Number));
  const lowest = Math.min(...[least.at(-1) ?? 0, ...tables.map((t) => t.total)].map(Number));
  const picture = new Picture(svg, 320, highest, 1.15, of, lowest);
  const x = (classes) => picture.left + 8 + ((picture.wide - 16) * (classes - 1)) / 31;
  for (const classes of [1, 4, 8, 12, 16, 20, 24, 28, 32]) picture.text(x(classes), picture.lower + 18, classes);
  picture.text(picture.left + picture.wide / 2, picture.height - 8, "classes in the table");
  const points = least.map((bytes, i) => `${short(x(i + 1))},${short(Math.max(picture.y(bytes), -10 * picture.height))}`);
  const area = `x="${picture.left}" y="${picture.upper - 8}" width="${picture.wide}" height="${picture.high + 10}"`;
  picture.parts.push(`<clipPath id="area"><rect ${area}/></clipPath>`);
  picture.parts.push(`<polyline class="curve" clip-path="url(#area)" points="${points.join(" ")}"/>`);
  for (const t of [...tables].reverse()) {
    picture.mark(t.style, x(t.classes), picture.y(t.total), `${t.name}: ${classesText(t.classes)}, ${bytesText(t.total)}`);
  }
  const ends = least.length ? `${bytesText(least[0])} with one, ${bytesText(least.at(-1))} with ${least.length}` : "not known";
  picture.finish(`${label}: ${ends}.`);
}

const LAYERS = 5;
const squareOf = (form) => `<svg viewBox="0 0 12 12" aria-hidden="true"><rect width="12" height="12" ${form}/></svg>`;

/** What is drawn one upon the other, from below: {words, form, bytes, most}, the bytes at each time. The classes that take least are one. */
function layersOf(classes, heights) {
  const columns = mostOf(heights.map((column) => column.length));
  const all = classes.map((c, i) => {
    const bytes = Array.from({ length: columns }, (_, at) => GRANULE * c * (heights[i][at] ?? 0));
    return { words: `blocks of ${grouped(GRANULE * c)} bytes`, bytes, most: mostOf(bytes) };
  });
  const taking = all.filter((layer) => layer.most).sort((one, other) => other.most - one.most);
  const rest = taking.splice(LAYERS);
  const layers = taking.map((layer, style) => ({ ...layer, form: `fill="var(--c${style})"` }));
  if (!rest.length) return layers;
  const bytes = Array.from({ length: columns }, (_, at) => sumOf(rest.map((layer) => layer.bytes[at])));
  const words = `${rest.length} other ${rest.length === 1 ? "class" : "classes"}`;
  return [...layers, { words, form: 'class="bars"', bytes, most: sumOf(rest.map((layer) => layer.most)) }];
}

/** The bytes of the live blocks over time in their layers, and the footprint. */
function drawLayers(svg, layers, footprint, of) {
  const picture = new Picture(svg, 320, footprint, 1.05);
  const columns = layers[0]?.bytes.length ?? 0;
  const x = (at) => short(picture.left + (picture.wide * at) / columns);
  const y = (bytes) => short(picture.y(bytes));
  let below = new Array(columns).fill(0);
  for (const { words, form, bytes, most } of layers) {
    const above = below.map((under, at) => under + bytes[at]);
    const up = above.map((top, at) => `H${x(at)}V${y(top)}`).join("");
    const down = below.map((under, at) => `H${x(at + 1)}V${y(under)}`).reverse().join("");
    const path = `M${x(0)} ${y(below[0])}${up}H${x(columns)}${down}Z`;
    picture.parts.push(`<path ${form} d="${path}"><title>${words}: at most ${bytesText(most)}</title></path>`);
    below = above;
  }
  picture.parts.push(`<path class="level" d="M${picture.left} ${y(footprint)}H${picture.right}"><title>footprint: ${bytesText(footprint)}</title></path>`);
  for (const share of [0, 25, 50, 75, 100]) {
    picture.text(picture.left + (picture.wide * share) / 100, picture.lower + 18, `${share}%`, share === 100 ? "end" : "middle");
  }
  picture.text(picture.left + picture.wide / 2, picture.height - 8, of);
  picture.finish(`The bytes of the live blocks over time, by class; the footprint is ${bytesText(footprint)}.`);
}

const octaves = (size) => Math.log2(Math.max(size, 8)) - 3;

/** The sizes in groups, so many for each doubling: by the place of its bar, each group's sizes, requests and bytes. */
function barsOf(sizes, perOctave) {
  const groups = new Map();
  for (const [size, count] of sizes) {
    const place = Math.max(0, Math.ceil(octaves(size) * perOctave - 1e-9) - 1);
    const group = groups.get(place) ?? { least: size, most: size, requests: 0, bytes: 0 };
    Object.assign(group, { most: size, requests: group.requests + count, bytes: group.bytes + size * count });
    groups.set(place, group);
  }
  return groups;
}

/** The bytes by size, the borders of the table, and those of another under the bars. */
function drawHistogram(svg, sizes, classes, other) {
  const perOctave = svg.parentElement.clientWidth < 500 ? 4 : 8;
  const groups = barsOf(sizes, perOctave);
  const highest = Math.max(1, ...[...groups.values()].map((g) => g.bytes));
  const picture = new Picture(svg, 300, highest, 1.05);
  const x = (size) => picture.left + (picture.wide * octaves(size)) / 11;
  const wide = picture.wide / (11 * perOctave);
  for (const [place, g] of groups) {
    const y = picture.y(g.bytes);
    const title = `${grouped(g.least)} to ${grouped(g.most)} bytes: ${grouped(g.requests)}, ${byteText(g.bytes)} in all`;
    const [width, height] = [Math.max(1, wide - 0.5), Math.max(0.5, picture.lower - y)];
    const at = `x="${short(picture.left + place * wide)}" y="${short(y)}" width="${short(width)}" height="${short(height)}"`;
    picture.parts.push(`<rect class="bars" ${at}><title>${title}</title></rect>`);
  }
  for (const c of classes) {
    const line = `M${short(x(16 * c - 16))} ${picture.upper}V${picture.lower}`;
    picture.parts.push(`<path class="border" d="${line}"><title>serves up to ${grouped(16 * c - 16)} bytes</title></path>`);
  }
  for (const c of other) picture.parts.push(`<path class="scudo" d="M${short(x(16 * c - 16))} ${picture.lower + 2}v8"/>`);
  const last = TICKS.at(-1)[0];
  for (const [size, words] of TICKS) {
    if (size === last) picture.text(x(size), picture.lower + 26, words, "end");
    else if (x(last) - x(size) > 60) picture.text(x(size), picture.lower + 26, words); // else the last one has no room
  }
  picture.text(picture.left + picture.wide / 2, picture.height - 4, "size in bytes");
  picture.finish(`The bytes by size, in ${counted(groups.size, "bar")}, with ${counted(classes.length, "border")} of the table.`);
}
