#!/usr/bin/env python3
"""Runs every sample of README and docs on the proved program, and compares.

usage: documents.py

A sample is a block between fences whose first line begins with `$ `. Each such line is a command,
and what stands below it, up to the next, is what it prints, on standard output and standard error
together. `$ cat FILE` makes the file that it shows, where there is none; `$ echo $?` is the status of
the command before. The samples of one document run one after the other in a folder of their own, in
which `examples` is that of the repository and `silkit` the program that `rt ci` has built.
"""
import os
import re
import subprocess
import sys
import tempfile

TOP = os.path.dirname(os.path.dirname(os.path.abspath(__file__)))
PROGRAM = os.path.join(TOP, "crates", "silkit", "out", "silkit")
SECONDS = 120


def documents():
    """The paths of the documents, from the top."""
    yield "README.md"
    for name in sorted(os.listdir(os.path.join(TOP, "docs"))):
        if name.endswith(".md"):
            yield os.path.join("docs", name)


def commands(text):
    """Each command of the samples, with the lines that it is to print."""
    for block in re.findall(r"^```[a-z]*\n(\$ .*?)^```", text, re.S | re.M):
        for part in re.split(r"^\$ ", block, flags=re.M)[1:]:
            command, *lines = part.rstrip("\n").split("\n")
            yield command, [line.rstrip() for line in lines]


def run(command, folder, before):
    """What the command prints, and its status."""
    environment = {**os.environ, "PATH": os.path.join(folder, "bin") + os.pathsep + os.environ["PATH"]}
    # `$?` at the start is the status of the command before.
    done = subprocess.run(
        ["bash", "-c", f"(exit {before}); {command}"],
        cwd=folder,
        env=environment,
        stdin=subprocess.DEVNULL,
        stdout=subprocess.PIPE,
        stderr=subprocess.STDOUT,
        timeout=SECONDS,
    )
    text = done.stdout.decode("utf-8", "replace").rstrip("\n")
    return [line.rstrip() for line in text.split("\n")] if text else [], done.returncode


def try_document(path):
    """How many samples the document has, and the differences."""
    with open(os.path.join(TOP, path), encoding="utf-8") as file:
        text = file.read()
    count, differences, status = 0, [], 0
    with tempfile.TemporaryDirectory() as folder:
        os.mkdir(os.path.join(folder, "bin"))
        os.symlink(PROGRAM, os.path.join(folder, "bin", "silkit"))
        os.symlink(os.path.join(TOP, "examples"), os.path.join(folder, "examples"))
        for command, wanted in commands(text):
            shown = re.fullmatch(r"cat (\S+)", command)
            if shown and not os.path.exists(os.path.join(folder, shown[1])):
                with open(os.path.join(folder, shown[1]), "w", encoding="utf-8") as file:
                    file.write("".join(line + "\n" for line in wanted))
                continue
            count += 1
            got, status = run(command, folder, status)
            if got != wanted:
                differences.append((command, wanted, got))
    return count, differences


def main():
    if not os.path.exists(PROGRAM):
        sys.exit(f"documents.py: {PROGRAM} isn't there: run `rt ci` first")
    total, bad = 0, 0
    for path in documents():
        count, differences = try_document(path)
        total += count
        bad += len(differences)
        for command, wanted, got in differences:
            print(f"{path}: $ {command}")
            print("  wanted", *wanted, sep="\n    ")
            print("  got", *got, sep="\n    ")
    print(f"{total} samples of the documents, {bad} of them differ")
    sys.exit(1 if bad or not total else 0)


if __name__ == "__main__":
    main()
