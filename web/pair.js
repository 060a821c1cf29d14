// Two profiles, histories or timelines beside each other: which is looked at, and what each table costs on both.
"use strict";

/** Says which of the two is looked at, and offers what may be done. */
function showSlots() {
  const [, second] = slots;
  $("slots").hidden = !second.kind;
  $("beside").hidden = Boolean(second.kind) || $("view-tune").hidden;
  $("beside").setAttribute("aria-pressed", String(comesTo === 1));
  for (const slot of slots) {
    $(`name-${slot.slot}`).textContent = slot.name;
    $(`look-${slot.slot}`).checked = slot === tuner;
  }
}

function showPair() {
  const filled = filledSlots();
  $("pair").hidden = filled.length < 2;
  if (filled.length < 2) return;
  for (const slot of filled) {
    $(`pair-name-${slot.slot}`).textContent = `${slot.slot}: ${slot.name}`;
    $(`pair-lead-${slot.slot}`).textContent = leadOf(slot);
    showWords(`pair-claim-${slot.slot}`, says(slot.judged));
    drawHistogram($(`pair-histogram-${slot.slot}`), slot.counts.sizes, slot.classes, classesOf(data.scudo));
  }
  // each has the same tables, its own among them
  const named = filled.map((slot) => new Map(slot.tables.map((table) => [table.style ? table.name : `the table of ${slot.slot}`, table])));
  const rows = [...named[0]].map(([name, { classes }]) => {
    const cells = filled.flatMap((slot, i) => costCells(slot, named[i].get(name)));
    return [escaped(name), cell(classes), ...cells];
  });
  const over = filled.map((slot) => (isOverTime(slot) ? [`Footprint over ${slot.slot}, bytes`, "Of its own table's"] : [`Waste on ${slot.slot}, bytes`, "Of its bytes"]));
  fillTable("pair-tables", ["Table", "Classes", ...over.flat()], rows);
}

/** The next file, text or example comes as this one of the two. */
function comeTo(at) {
  comesTo = at;
  if (at === 1) say("The next file, text or example comes as B, beside A.", false, "tune");
  showSlots();
}

function lookAt(at) {
  comesTo = at;
  tuner = slots[at];
  showText();
  showTuned();
  showSheet();
}

function dropSecond() {
  slots[1] = newSlot("B");
  lookAt(0);
  return tune();
}

$("beside").onclick = () => comeTo(comesTo === 1 ? 0 : 1);
$("look-A").onchange = () => lookAt(0);
$("look-B").onchange = () => lookAt(1);
$("drop-B").onclick = told(dropSecond);
