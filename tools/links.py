#!/usr/bin/env python3
"""Checks README.md and docs/*.md: each link leads to a file and to a heading of it, each path that is named is there,
each name of the code that stands in backticks is in the code, and no line is longer than 120 columns. Prints what is
wrong; the exit status is 1 if anything is.

    python3 tools/links.py
"""
import os
import re
import sys

TOP = os.path.dirname(os.path.dirname(os.path.abspath(__file__)))
# Words in backticks that are no names of the code: those of texts, of the toolchain and of the environment.
OTHER_WORDS = {"logic", "rattle", "dac8208d650f15bf", "RT_JOBS"}


def anchor(heading):
    """The name by which a link leads to a heading, as git hosts make it."""
    plain = re.sub(r"\[([^\]]*)\]\([^)]*\)", r"\1", heading.strip()).lower()
    return re.sub(r"[^\w\- ]", "", plain).replace(" ", "-")


def without_code(text):
    return re.sub(r"^```.*?^```", "", text, flags=re.S | re.M)


def anchors(text):
    return {anchor(h) for h in re.findall(r"^#+ (.*)", without_code(text), flags=re.M)}


def code_words():
    """All words of the crates and scripts, and the names of their files."""
    words = set()
    for folder in ("crates", "bench", "tools", "examples"):
        for path, folders, files in os.walk(os.path.join(TOP, folder)):
            folders[:] = [f for f in folders if f != "out"]
            words.update(w for name in folders + files for w in re.findall(r"\w+", name))
            for name in files:
                if name.endswith((".rt", ".antt", ".sh", ".txt", ".py")) or "." not in name:
                    with open(os.path.join(path, name), errors="replace") as f:
                        words.update(re.findall(r"\w+", f.read()))
    return words


def faults(name, texts, words):
    text = texts[name]
    for number, line in enumerate(text.split("\n"), 1):
        if len(line) > 120:
            yield f"line {number} has {len(line)} columns"
    for link in re.findall(r"\]\(([^)\s]+)\)", without_code(text)):
        path, _, place = link.partition("#")
        target = os.path.normpath(os.path.join(os.path.dirname(name), path)) if path else name
        if link.startswith("http"):
            continue
        if not os.path.exists(os.path.join(TOP, target)):
            yield f"no file for the link {link}"
        elif place and place not in anchors(texts.get(target, "")):
            yield f"no heading for the link {link}"
    for path in re.findall(r"(?<![\w/])(?:docs|bench|tools|examples|\.ci)/[\w.\-/]*\w", text):
        if not os.path.exists(os.path.join(TOP, path)):
            yield f"no file {path}"
    for quoted in re.findall(r"`([^`\n]+)`", without_code(text)):
        for word in re.findall(r"[A-Za-z_]\w{3,}", quoted):
            if word not in words and word not in OTHER_WORDS and not word.isupper():
                yield f"no {word} in the code"


def main():
    names = ["README.md"] + sorted("docs/" + f for f in os.listdir(os.path.join(TOP, "docs")) if f.endswith(".md"))
    texts = {}
    for name in names:
        with open(os.path.join(TOP, name)) as f:
            texts[name] = f.read()
    words = code_words()
    found = [f"{name}: {fault}" for name in names for fault in faults(name, texts, words)]
    print("\n".join(found) if found else f"{len(names)} documents: nothing is wrong")
    return 1 if found else 0


if __name__ == "__main__":
    sys.exit(main())
