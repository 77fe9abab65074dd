#!/usr/bin/env python3
"""Checks the examples of the documents: docs/FORMATS.md shows the files of examples/ byte for byte, so does the test
that reads them, and the program accepts them and prints and writes what FORMATS shows. Prints what is wrong; the exit
status is 1 if anything is, and 2 if there is no program.

    python3 tools/examples.py        by environment: IH (the program; else crates/ih_main/out/ih_main)
"""
import os
import re
import subprocess
import sys
import tempfile

TOP = os.path.dirname(os.path.dirname(os.path.abspath(__file__)))
EXAMPLES = os.path.join(TOP, "examples")
TEST = "crates/ih_program_tests/src/tests/examples.rt"
IH = os.environ.get("IH", os.path.join(TOP, "crates/ih_main/out/ih_main"))


def read(*path):
    with open(os.path.join(TOP, *path)) as f:
        return f.read()


def shown_files(text):
    """The blocks of FORMATS that follow 'examples/NAME, the whole file'."""
    return re.findall(r"examples/(\S+), the whole file.*?\n```\w*\n(.*?)```\n", text, flags=re.S)


def run(folder, words):
    """What a call prints, over the files of examples/ and those that earlier calls have written to the folder."""
    inputs = {name: os.path.join(EXAMPLES, name) for name in os.listdir(EXAMPLES)}
    names = [inputs.get(os.path.basename(w), w) if w.startswith("examples/") else w for w in words.split()]
    return subprocess.run([os.path.abspath(IH), *names], cwd=folder, capture_output=True, text=True).stdout


def other_texts(formats):
    """What FORMATS or the test doesn't show as it is: a file of examples/, or the report."""
    test = read(TEST)
    for name, block in shown_files(formats):
        if block != read("examples", name):
            yield f"docs/FORMATS.md doesn't show examples/{name} as it is"
        if f"\n{block}" not in test:
            yield f"{TEST} has another {name}"
    if f"\n{report_in(formats)}>" not in test:
        yield f"{TEST} has another report"


def report_in(formats):
    """The first column of the table of the report."""
    return "\n".join(re.findall(r"^\| `((?:[VS]\d|cost) [^`]*)` \|", formats, flags=re.M)) + "\n"


def calls(formats):
    """Each call of a document, what it prints, and a file that it writes with the bytes that this has then."""
    journal = dict(shown_files(formats))["small.journal"]
    options = re.search(r"small\.journal (--seed .*?) \\\n\s+(--start \S+)", formats)
    yield "check examples/small_ward.json examples/small_plan.json", report_in(formats), None
    words = "examples/small_ward.json plan.json small.journal " + " ".join(options.groups())
    yield "solve " + words, None, ("small.journal", journal)
    yield "replay examples/small_ward.json examples/small.journal again.json " + options.group(2), None, None


def main():
    formats = read("docs/FORMATS.md")
    wrong = list(other_texts(formats))
    if not os.access(IH, os.X_OK):
        print("\n".join(wrong + [f"no program at {IH}: build it, or name it by IH"]))
        return 2
    with tempfile.TemporaryDirectory() as folder:
        for words, printed, written in calls(formats):
            said = run(folder, words)
            if (said != printed) if printed else not re.search(r"^cost \d+$", said, flags=re.M):
                wrong.append(f"another text of: {words}")
            if written and open(os.path.join(folder, written[0])).read() != written[1]:
                wrong.append(f"another {written[0]} of: {words}")
    print("\n".join(wrong) if wrong else f"{len(shown_files(formats))} files and their calls: nothing is wrong")
    return 1 if wrong else 0


if __name__ == "__main__":
    sys.exit(main())
