"""Tests of what the commands of a fleet say of tables: each sentence that gives a bound is read back, and compared with all tables of small cases,
by the definitions of waste and footprint; with a class forced and without, for each step.

It runs over the built program, or over the plain one where that is not built, or over the one that MTE_TOOL names."""

import itertools
import math
import random
import re

import claims_cases
from checks import expect
from claims_cases import BOUND, CASES, CLAIM, COST, footprint, history_text, lowest, small, small_timeline, waste
from mte_scripts import count_texts
from mte_scripts.entry_point import Refusal
from mte_scripts.fleet import bounds, common_table, loads, regret
from mte_scripts.formats import MOST_COUNT

ABOVE = re.compile(r"\"app\" (?:wastes|takes) ([\d,]+) bytes?[;,].*? at most (-?[\d,.]+)% above that\.")
WORST = re.compile(
    r"Tested, and not proved: no table costs more by these counts .*?; so none of these tables stays below ([\d,.]+)% above the bounds on all of them\. "
    r"(That is the worst of this table\.)?"
)


def machines(chosen):
    """Machines with weights and small histories, and what a table takes over them."""
    found = [(chosen.randrange(1, 4), small(chosen, chosen.randrange(1, 4))) for _ in range(chosen.randrange(1, 4))]
    if not any(size > 0 for _, history in found for size in history):
        found.append((1, {1: [1]}))

    def cost_of(table, given):
        each = [footprint(table, history) for _, history in given]
        return None if None in each else sum(weight * cost for (weight, _), cost in zip(given, each))

    return found, cost_of


def fleet_loads(chosen):
    """Each kind of load, what it is of, and its cost by the definition."""
    profile, history = {40: 1, **small(chosen)}, {40: [1, 2], **small(chosen, 2)}
    yield loads.Load("it", "profile", profile), profile, waste
    many = {size: times * 10**9 + chosen.randrange(10**9) for size, times in profile.items()}
    yield loads.Load("it", "profile", many), many, waste
    yield loads.load_of_text(history_text(history).encode(), "it"), history, footprint
    text, history = small_timeline(chosen)
    if any(history):
        yield loads.load_of_text(text.encode(), "it"), history, footprint
    found, cost_of = machines(chosen)
    members = [loads.Member(weight, count_texts.History(len(next(iter(history.values()))), history)) for weight, history in found]
    yield loads.Load("it", "histories", members=members), found, cost_of


def near_tables(classes, given, step):
    """The tables in which one class, but the largest, is another need of the loads."""
    needs = {-(-(max(-(-size // 16), 1) + 1) // step) * step for load in given for size in load.sizes}
    for at in range(len(classes) - 1):
        below = classes[at - 1] if at else 1
        yield from ([*classes[:at], need, *classes[at + 1 :]] for need in sorted(needs) if below < need < classes[at + 1])


class Tables(claims_cases.WithProgram):
    """The sentences against all tables of small cases."""

    def test_regret(self):
        """Bounds by certificates, of profiles, histories, timelines and machines, and how far a table is at most above them."""
        chosen, exact, told = random.Random(5), 0, 0
        for limit, step, with_forced in CASES:
            among = bounds.TableLimits(limit, step, with_forced)
            for load, given, cost in fleet_loads(chosen):
                table = sorted({step * chosen.randrange(2, 40) for _ in range(chosen.randrange(1, limit + 1))} | {1024})
                found = regret.regret_of(load, bounds.bound_load(load, among), table[-limit:])
                said, what = found.sentences("app"), f"{load.kind}, limit {limit}, step {step}, {'forced' if with_forced else 'not forced'}"
                match = CLAIM.search(said)
                if not expect(f"{what}: no claim in `{said}`", match):
                    continue
                forced = [int(each) for each in re.findall(r"\d+", match[4] or "")]
                derived = BOUND.search(said)
                bound = int((derived[1] if derived else match[COST]).replace(",", ""))
                is_own = load.kind in ("history", "timeline") or load.kind == "profile" and max(load.counts.values()) <= MOST_COUNT
                expect(f"{what}: what is proved is of the load itself, or the rest is called tested: {said}", is_own == (not derived))
                least = lowest(cost, given, limit, step, forced)
                expect(f"{what}: `{match[0]}`, and {least} is the least, on {given}", bound <= least and int(match[1]) == limit)
                exact, told = exact + (bound == least), told + 1
                own = cost(table[-limit:], given)
                expect(f"{what}: the table costs {own}, not {found.cost}", load.fixed + own == found.cost)
                above = ABOVE.search(said)
                if own < least:
                    expect(f"{what}: it is below: `{said}`", not above and ("costs less" in said or own >= bound))
                    continue
                true = 100 * (own - bound) / (load.fixed + bound)
                shown = float(above[2].replace(",", ""))
                expect(f"{what}: {shown}% of `{said}`, and not {true}", int(above[1].replace(",", "")) == own and true - 1e-6 <= shown < true + 0.0101)
        expect(f"{exact} of {told} bounds are what a table reaches", exact > 0.8 * told)

    def test_worst(self):
        """A table for several loads: what bounds the worst of every table, by all tables of small cases, and that of the table itself."""
        chosen, exact, cases = random.Random(12), 0, 0
        for (limit, step, with_forced), is_profile in itertools.product(CASES, (True, False)):
            among = bounds.TableLimits(limit, step, with_forced)
            pairs = [(load, given, cost) for load, given, cost in [*fleet_loads(chosen), *fleet_loads(chosen)] if (load.kind == "profile") == is_profile]
            pairs = [pair for pair in pairs if max(pair[0].counts.values(), default=0) < 10**9][: chosen.randrange(1, 4)]
            given = [load for load, _, _ in pairs]
            own = [bounds.bound_load(load, among) for load in given]
            what = f"{[load.kind for load in given]}, limit {limit}, step {step}, {'forced' if with_forced else 'not forced'}"
            try:
                made = common_table.Search(given, own, among).find_table()
            except Refusal as refused:
                expect(f"{what}: {refused.text}", limit == 1)
                continue
            said = common_table.worst_sentence(made, given)
            match, claim = WORST.search(said), CLAIM.search(said)
            if not expect(f"{what}: no claim in `{said}`", match and claim and int(claim[1]) == limit and int(claim[2]) == 16 * step):
                continue
            forced, amounts = [int(claim[4])] if claim[4] else [], [bound.amount for bound in own]

            def worst(table, _):
                costs = [cost(table, each) for _, each, cost in pairs]
                return None if None in costs else max((load.fixed + own) / amount for load, own, amount in zip(given, costs, amounts))

            least, own_worst = lowest(worst, None, limit, step, forced), worst(made.classes, None)
            expect(f"{what}: `{match[0]}`, and {least} is the least", float(match[1].replace(",", "")) <= 100 * (least - 1) + 1e-6)
            expect(f"{what}: the table's worst is {own_worst}, not {made.worst}", abs(own_worst - made.worst) < 1e-9)
            expect(f"{what}: `{said}`, and {own_worst} is not {least}", not match[2] or own_worst <= least + 1e-9)
            expect(f"{what}: its own worst is not in `{said}`", match[2] or f"its worst is {common_table.round_percent(made.worst, True):,.2f}%" in said)
            exact, cases = exact + bool(match[2]), cases + 1
            better = [table for table in near_tables(made.classes, given, step) if (other := worst(table, None)) is not None and other < own_worst - 1e-9]
            expect(f"{what}: a table with one class moved has a lower worst", not better, made.classes, better)
        expect(f"{exact} of {cases} tables are shown to have the least worst", exact > 0.5 * cases)

    def test_moves(self):
        """Of loads with many sizes the search ends where no class can be moved to better the worst of them."""
        chosen = random.Random(3)
        for _ in range(12):
            limit, step = chosen.randrange(2, 5), 1
            among = bounds.TableLimits(limit, step, False)
            profiles = [{chosen.randrange(1, 600): chosen.randrange(1, 50) for _ in range(14)} for _ in range(chosen.randrange(2, 4))]
            given = [loads.Load(f"load {at}", "profile", counts) for at, counts in enumerate(profiles)]
            own = [bounds.bound_load(load, among) for load in given]
            made = common_table.Search(given, own, among).find_table()

            def worst(table):
                costs = [waste(table, counts) for counts in profiles]
                return math.inf if None in costs else max((load.fixed + cost) / it.amount for load, cost, it in zip(given, costs, own))

            better = [table for table in near_tables(made.classes, given, step) if worst(table) < worst(made.classes) - 1e-9]
            expect(f"{profiles}, limit {limit}: a class can be moved", not better, made.classes, better)
