#!/usr/bin/env python3
"""Spells this repository's own definitions, lemmas and record fields as today's Rattle does: words in snake case,
facts in camel case. Run once, at the top, right after the toolchain's port.py; a second run changes nothing.

Left alone: names of functions in src/, the names that Rattle makes (goals, and what stands behind `c.` or `goal.` in a
proof file), and the library's names. A definition that would then have the name of a function gets another one: the
table OTHER lists those, and curve_step() has one more."""
import os
import re
import subprocess

# old name: new name, where snake case would fall together with a function of src/, and two names that follow these
OTHER = {
    "curve-steepness": "steepness_of_curve",
    "table-steepness": "steepness_of_table",
    "joined-steepness": "steepness_of_joined",
    "matrix-steepness": "steepness_of_matrix",
    "joined-error": "error_of_joined",
    "matrix-error": "error_of_matrix",
    "output-step": "step_of_output",
    "lattice-output": "output_of_node",
    "worked-figures": "worked_figures_lem",
}

WORD = re.compile(r"[A-Za-z][\w'-]*")
DEFINED = re.compile(r"^ *(?:abbrev |unfoldable )?(?:pub )?([A-Za-z][\w'-]*) :", re.M)
RECORD = re.compile(r"^(?:pub )?(?:record|data) ([A-Za-z][\w'-]*)", re.M)
GOAL = re.compile(r"^(?:abbrev )?(?:pub )?([A-Za-z][\w'-]*) : goal\.", re.M)


def listed():
    names = subprocess.run(["git", "ls-files", "-co", "--exclude-standard"], capture_output=True, text=True, check=True)
    return [name for name in names.stdout.split() if os.path.isfile(name)]


def own_names(texts):
    """The names with a dash that specs/ and proofs/ define."""
    found, goals = set(), set()
    for name, text in texts.items():
        if name.endswith(".antt"):
            found |= set(DEFINED.findall(text)) | set(RECORD.findall(text))
            goals |= set(GOAL.findall(text))
    return {n for n in found - goals if "-" in n}


def new_name(old):
    if old in OTHER:
        return OTHER[old]
    if old[0].isupper():
        return "".join(part[0].upper() + part[1:] for part in old.split("-"))
    return old.replace("-", "_")


def respelled(text, names):
    """Each whole word of the table, but for what Rattle made."""

    def word(match):
        before = text[: match.start()]
        if before.endswith("goal.") or re.search(r"\bc\.$", before[-4:]):
            return match.group(0)
        return names.get(match.group(0), match.group(0))

    return WORD.sub(word, text)


def curve_step(name, text):
    """port.py gave the largest step between entries of curves the name that a function of src/ has."""
    if name.startswith("crates/meaning/") and name.endswith(".antt"):
        return re.sub(r"\blargest_step\b", "largest_curve_step", text)
    if name.endswith("/curves.rt"):
        text = text.replace("{curves, largest_step}", "{curves, largest_curve_step}")
        return text.replace("≡ largest_step ", "≡ largest_curve_step ")
    return text


def main():
    texts = {n: open(n, encoding="utf-8").read() for n in listed() if n.endswith((".antt", ".rt"))}
    names = {old: new_name(old) for old in sorted(own_names(texts))}
    used = {w for text in texts.values() for w in WORD.findall(text)}
    for old, new in names.items():
        if new in used:
            print(f"look: {old} becomes {new}, which is a word already")
    pages = {n: open(n, encoding="utf-8").read() for n in listed() if n.endswith(".md") and "/changes/" not in n}
    for name, text in texts.items():
        now = curve_step(name, respelled(text, names))
        if now != text:
            open(name, "w", encoding="utf-8").write(now)
    for name, text in pages.items():
        now = re.sub(r"`[^`\n]+`", lambda m: respelled(m.group(0), names), text)
        if now != text:
            open(name, "w", encoding="utf-8").write(now)
    for old, new in names.items():
        print(f"{old} -> {new}")


if __name__ == "__main__":
    main()
