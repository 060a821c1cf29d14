"""The totals of a report as docs/FORMATS.md has them, counted over the report's other lines, and so without a heap."""

from mte_scripts.formats import TOTALS


def report(classes: "list[int]", trace: str, lines: str) -> str:
    """The report of a trace over some classes that begins with these lines of its events."""
    said = dict(line.split(" ", 1) for line in lines.splitlines())
    each = [count_event(classes, event, said.get(str(number), "")) for number, event in enumerate(trace.splitlines(), 1)]
    return lines + "".join(f"{name} {sum(one[name] for one in each)}\n" for name in TOTALS)


def count_event(classes: "list[int]", event: str, line: str) -> "dict[str, int]":
    """What an event adds to each total. LINE is its line in the report, without the number, and empty where it has none."""
    word, *numbers = event.split(" ")
    is_request = word in ("malloc", "calloc", "realloc")
    return {
        "events": 1,
        "requests": is_request,
        "null large": line == "null large",
        "null no-class": line == "null no-class",
        "null exhausted": line == "null exhausted",
        "faults tag": line.startswith("fault tag "),
        "faults unmapped": line == "fault unmapped",
        "refused frees": line.startswith("refused "),
        "loss": unused_bytes(classes, int(numbers[1])) if is_request and not line else 0,
    }


def unused_bytes(classes: "list[int]", size: int) -> int:
    """The bytes of its payload that a request leaves unused."""
    return next(16 * each - 16 - size for each in classes if 16 * each - 16 >= size)
