// Of a run that is recorded with stacks: for each event of its timeline a site, which is a stack and a size. mte_scripts/recording/sites.py
// reads what is written of them.
#pragma once
#include "stream.h"

static void *some(size_t bytes);
enum { MOST_RECORDED = 1 << 26 };  // events, as many as there is room for in the pieces of a record
static struct sites {
  struct site { uint32_t stack, counter; } *at;
  uint32_t *places, *events, number, mask, current;  // a table by hash of sites, from 1; the site of the next event
} sites;

static uint32_t *place_of_site(uint32_t stack, uint32_t counter) {
  uint64_t hash = ((uint64_t)stack << 15 | counter) * 0x9E3779B97F4A7C15ULL;
  uint32_t i = hash >> 32 & sites.mask;
  while (sites.places[i] && (sites.at[sites.places[i] - 1].stack != stack || sites.at[sites.places[i] - 1].counter != counter)) i = (i + 1) & sites.mask;
  return &sites.places[i];
}

static void begin_sites(void) {
  if (!sites.events) sites.events = some(MOST_RECORDED * sizeof *sites.events), sites.at = some(MOST_RECORDED / 2 * sizeof *sites.at);
  if (sites.places) munmap(sites.places, (sites.mask + 1UL) * sizeof *sites.places);
  sites.mask = (1 << 12) - 1, sites.places = some((sites.mask + 1UL) * sizeof *sites.places), sites.number = 0;
}

static uint32_t site_of(uint32_t stack, uint32_t counter) {
  uint32_t *place = place_of_site(stack, counter);
  if (*place) return *place - 1;
  sites.at[sites.number] = (struct site){stack, counter}, *place = ++sites.number;
  if (sites.number * 2UL > sites.mask) {
    munmap(sites.places, (sites.mask + 1UL) * sizeof *sites.places);
    sites.mask = sites.mask * 2 + 1, sites.places = some((sites.mask + 1UL) * sizeof *sites.places);
    for (uint32_t k = 0; k < sites.number; k++) *place_of_site(sites.at[k].stack, sites.at[k].counter) = k + 1;
  }
  return sites.number - 1;
}

// Writes how many numbers of each kind follow, and these: the events, twice their site and 1 for a free; the sites, a stack and a counter; the
// words of the stacks, and where each begins in them; and the objects.
static void write_sites(FILE *to, int events, const struct stacks *stacks) {
  uint64_t words = __atomic_load_n(&stacks->used, __ATOMIC_RELAXED), modules = __atomic_load_n(&stacks->modules, __ATOMIC_RELAXED);
  if (words > STACK_WORDS) words = STACK_WORDS;  // loaded once: a process that is left can change them
  if (modules > MODULES) modules = MODULES;
  uint64_t head[] = {events, sites.number, words, modules, sizeof *stacks->module};
  fwrite(head, sizeof *head, sizeof head / sizeof *head, to);
  fwrite(stacks->words, sizeof *stacks->words, words, to);
  fwrite(stacks->module, sizeof *stacks->module, modules, to);
  for (uint32_t k = 0; k < sites.number; k++) {
    uint64_t at = sites.at[k].stack ? stacks->place[sites.at[k].stack - 1].at : 0;
    fwrite(&at, sizeof at, 1, to);
  }
  for (uint32_t k = 0; k < sites.number; k++) fwrite(&sites.at[k].counter, sizeof sites.at[k].counter, 1, to);
  fwrite(sites.events, sizeof *sites.events, events, to);
}
