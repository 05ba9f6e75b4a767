"""Times Python's own parser of format strings, _string.formatter_parser, on the texts of a folder; those that it refuses are left out."""

import _string
import pathlib
import sys
import time

ROUNDS = 20


def quickest(text: str) -> float | None:
    """Nanoseconds of the quickest of many readings, or None where the parser stops at an error."""
    try:
        list(_string.formatter_parser(text))
    except ValueError:
        return None
    best = float("inf")
    for _ in range(ROUNDS):
        start = time.perf_counter_ns()
        list(_string.formatter_parser(text))
        best = min(best, time.perf_counter_ns() - start)
    return best


def main() -> None:
    print("| Python's _string.formatter_parser | ns a byte | ns a call |")
    print("|---|---|---|")
    for path in sorted(pathlib.Path(sys.argv[1]).glob("*.txt")):
        text = path.read_bytes().decode()
        best = quickest(text)
        if best is None:
            print(f"| {path.stem} | refused | refused |")
        else:
            print(f"| {path.stem} | {best / len(text.encode()):.2f} | {best:.0f} |")


main()
