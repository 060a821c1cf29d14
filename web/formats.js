// The numbers of the formats, the words of their codes, and the options and commands.
// Written by scripts/tests/formats from scripts/mte_scripts/formats.py.
"use strict";

const GRANULE = 16;
const LARGEST_CLASS = 1024;
const LARGEST_SIZE = 16368;
const MOST_CLASSES = 32;
const MOST_INPUT = 67108864;
const REGION = 1n << 36n;
const DEFAULTS = { granules: 65536, quarantine: 65536, seed: 1, limit: 8, step: 1, largest_class: 0, claim: 0, first_lines: 0 };
const OPTION_BITS = { granules: 32, quarantine: 32, seed: 16, limit: 8, step: 8, largest_class: 8, claim: 8, first_lines: 8 };
const HEAP_OPTIONS = ["granules", "quarantine", "seed"];
const COMMANDS = ["score", "tune", "check", "footprint", "fit", "check-fit", "profile", "replay", "run", "peaks"];
const OF_TWO_TEXTS = ["score", "check", "footprint", "check-fit", "replay", "peaks"];
const ENDED = ["done", "no", "refused", "out of memory", "bad option", "misuse"];
const INPUT_CODES = {
  20: "there are more than 32 classes",
  21: "a class is not from 2 to 1024",
  22: "a class is not above the one before it",
  23: "the class line is not 'classes' and then numbers",
  30: "a line is not a size up to 16,368, or 'large', and then counts",
  31: "a size is not above the one before it",
  32: "a count is above 1,000,000,000, or all of a line are 0",
  34: "the history's first line is not 'snapshots T', T from 1 to 1024",
  35: "a line does not have T numbers, one for each snapshot",
  37: "a line of the timeline is none of its four forms",
  38: "a free of a size of which no block is live",
  36: "a line is not of a fit's form, or is missing",
  48: "a line is not of a sheet's form, or is missing",
  70: "a line is no event, or has a word too many or too few",
  71: "a word is no number of its kind, or not in its one spelling",
  72: "a number is not in its range",
  73: "a line has more than 80 bytes",
  74: "there is a line after 1,000,000 events",
  80: "there are more than 67,108,864 bytes",
  83: "the step is 3, 5, 6 or 7; nothing is read then",
};
const CAUSES = {
  large: "more than 16,368 bytes are requested",
  "no-class": "no class of the table serves the request",
  exhausted: "no slot of the request's class is left",
  misplaced: "no chunk of a slot begins at the address",
  "not-live": "the chunk there is not live",
  "wrong-tag": "the address has another tag than the chunk",
};
