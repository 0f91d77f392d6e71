#!/usr/bin/env python3
"""Holds the README's examples to the programs that are tested.

usage: check_readme.py     run at the repository's root

In the sections "From Rust", "A server on a socket", "From C" and "From Rattle" of README.md every fenced block has to stand in the program that the section is
about, line for line and one line behind the other, and every indented line of the last in crates.txt. It says what does not, or how much was compared.
"""
import sys

SECTIONS = {
    "## From Rust": "rust/examples/station.rs",
    "## A server on a socket": "rust/examples/server.rs",
    "## From C": "examples/station.c",
    "## From Rattle": "crates/station/src/main.rt",
}


def lines(path):
    return open(path, encoding="utf-8").read().split("\n")


def stands(block, text):
    return any(text[at : at + len(block)] == block for at in range(len(text) - len(block) + 1))


def parts(section):
    """The fenced blocks of a section, its indented lines, and whether every block is closed."""
    blocks, listed, block = [], [], None
    for line in section:
        if line.startswith("```"):
            if block is None:
                block = []
            else:
                blocks.append(block)
                block = None
        elif block is not None:
            block.append(line)
        elif line.startswith("    "):
            listed.append(line[4:])
    return blocks, listed, block is None


def main():
    readme, crates = lines("README.md"), lines("crates.txt")
    wrong, compared = [], []
    for title, source in SECTIONS.items():
        begin = readme.index(title)
        end = next((at for at in range(begin + 1, len(readme)) if readme[at].startswith("## ")), len(readme))
        blocks, listed, closed = parts(readme[begin:end])
        text = lines(source)
        wrong += [f"not in {source}, from: {block[0]}" for block in blocks if not stands(block, text)]
        wrong += [f"not in crates.txt: {line}" for line in listed if line not in crates]
        if not closed or not blocks:
            wrong.append(f"README.md, {title}: an example is to stand there, in closed blocks")
        compared.append(f"{sum(map(len, blocks))} lines of {source}")
        if title == "## From Rattle":
            if not listed:
                wrong.append("README.md: the example's line of crates.txt is to stand there")
            compared.append(f"{len(listed)} of crates.txt")
    print("\n".join(wrong) or ", ".join(compared) + " stand in README.md")
    sys.exit(1 if wrong else 0)


main()
