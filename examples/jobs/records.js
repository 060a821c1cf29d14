// Keeps records, replaces some of them, and counts what is left.
let seed = 7;
const draw = (n) => { seed = (seed * 1103515245 + 12345) % 2147483648; return Math.floor(seed / 65536) % n; };
const words = ["amber", "basalt", "cedar", "delta", "ember", "fjord", "granite", "harbour"];
const record = (n) => ({ id: n, name: `${words[draw(8)]} ${n}`, bytes: Buffer.from("x".repeat(5000 + draw(4000))) });
const kept = Array.from({ length: 8000 }, (_, n) => record(n));
for (let n = 0; n < 4000; n++) kept[draw(8000)] = record(n);
console.log(kept.reduce((sum, each) => sum + each.bytes.length, 0));
