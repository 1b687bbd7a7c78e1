#!/usr/bin/env python3
"""Which specifications and which services match, worked out from the rules in docs/FORMATS.md alone.

    scripts/matching_table.py           prints the two tables
    scripts/matching_table.py --check   compares them with those of crates/sk_tests/src/matching.rt

First a row per specification that reads, with a digit per specification that writes: 1 where they match. The
specifications are those of all topics, media types and labels below, the labels changing fastest. Then a row per kind
of service, with a digit per kind of another one: 1 where they match, if the first takes every media type and the
second has one.
"""
import re
import sys
from pathlib import Path

TOPICS = ["a", "b"]
MEDIA_TYPES = ["", "x", "y"]
OPTIONAL, MANDATORY = "optional", "mandatory"
# Each has a label or none: what the other side has to do with it, its key and its value.
LABELS = [
    None,
    (OPTIONAL, "k", "v"),
    (OPTIONAL, "k", "w"),
    (MANDATORY, "k", "v"),
    (MANDATORY, "k", "w"),
    (MANDATORY, "l", "v"),
]
KINDS = ["can", "ethernet", "lin", "publisher", "subscriber", "server", "client"]
BUSES = {"can", "ethernet", "lin"}
READER_AND_WRITER = {("subscriber", "publisher"), ("client", "server")}


def fits(label, other):
    """Whether a side's label, if it has one, finds what it needs on the other side."""
    if label is None:
        return True
    kind, key, value = label
    values = {} if other is None else {other[1]: other[2]}
    if kind == MANDATORY:
        return values.get(key) == value
    return key not in values or values[key] == value


def match(reader, writer):
    topics_are_equal = reader[0] == writer[0]
    media_type_is_taken = reader[1] in ("", writer[1])
    labels_fit = fits(reader[2], writer[2]) and fits(writer[2], reader[2])
    return topics_are_equal and media_type_is_taken and labels_fit


def services_match(own_kind, own, other_kind, other):
    if own_kind in BUSES:
        return own_kind == other_kind and match(own, other)
    if (own_kind, other_kind) in READER_AND_WRITER:
        return match(own, other)
    if (other_kind, own_kind) in READER_AND_WRITER:
        return match(other, own)
    return False


def digits(answers):
    return "".join("1" if answer else "0" for answer in answers)


def tables():
    specs = [(topic, media, label) for topic in TOPICS for media in MEDIA_TYPES for label in LABELS]
    by_spec = [digits(match(reader, writer) for writer in specs) for reader in specs]
    own, other = ("a", "", None), ("a", "x", None)
    by_kind = [digits(services_match(kind, own, second, other) for second in KINDS) for kind in KINDS]
    return by_spec, by_kind


def main():
    by_spec, by_kind = tables()
    if sys.argv[1:] != ["--check"]:
        print("\n".join(by_spec + [""] + by_kind))
        return 0
    test = Path(__file__).resolve().parent.parent / "crates/sk_tests/src/matching.rt"
    rows = re.findall(r"^[01]+", test.read_text(encoding="utf-8"), re.MULTILINE)
    if rows != by_spec + by_kind:
        print(f"{test.name}: its tables aren't those of the rules", file=sys.stderr)
        return 1
    print(f"matching: {len(by_spec)} specifications, {len(by_kind)} kinds of services")
    return 0


if __name__ == "__main__":
    sys.exit(main())
