#!/usr/bin/env python3
"""Respells the definitions and lemmas of specs/ and proofs/: words in snake case, types and facts in camel case.

usage: python3 tools/respell.py     once, at the top of the repository, after the kit's port.py

It renames what the repository itself declares in .antt files, wherever the name stands in .antt files, in the clauses of .rt files and
between backticks in docs/ and README.md. Functions of src/, comments, strings and must-fail edits keep their text.
"""
import os
import re
import sys

# names that the plain rule would let fall together, or that would hide a function of src/ in its own file
OWN = {
    "afterCoc": "settings_after_coc",
    "afterCod": "settings_after_cod",
    "afterQcc": "settings_after_qcc",
    "afterQcd": "settings_after_qcd",
    "band-edge": "band_edge_of",
    "block-count": "block_count_of",
    "block-exponent": "block_exponent_of",
    "behind-main": "behind_main_lem",
    "behind-part": "behind_part_lem",
    "component-tile": "component_tile_of",
    "cutShort": "is_cut_short",
    "exponentMantissa": "exponent_mantissa_of",
    "first-start": "first_start_of",
    "getD-product": "get_or_product",
    "is-cod": "cod_there",
    "isCod": "cod_test",
    "isDerived": "has_derived_style",
    "isQcd": "qcd_test",
    "last-coc": "last_coc_lem",
    "last-cod": "last_cod_lem",
    "last-qcc": "last_qcc_lem",
    "last-qcd": "last_qcd_lem",
    "levels-in": "levels_in_lem",
    "levels-of": "levels_of_lem",
    "main-standing": "main_standing_lem",
    "mainKind": "main_kind_of",
    "otherFlags": "other_flags_of",
    "parameters-at": "parameters_at_lem",
    "part-standing": "part_standing_lem",
    "partKind": "part_kind_of",
    "passed-case": "passed_case_lem",
    "pptCount": "ppt_count_of",
    "precinctSizes": "precinct_size_count",
    "quantization-in": "quantization_in_lem",
    "quantization-of": "quantization_of_lem",
    "stepCount": "step_count_of",
    "stepRow": "step_row_of",
    "style-of": "style_of_lem",
    "styleOf": "quantization_style_of",
    "tiles-of": "grid_tiles",
    "until-end": "until_end_lem",
}
# constructors beside functions of the same words, in these crates alone
THERE = {
    "starts": {"component-tiles": "for_component_tiles", "precinct-rects": "for_precinct_rects", "code-blocks": "for_code_blocks"},
}
WORD = re.compile(r"[^\W\d][\w'′]*(?:-[\w'′]+)*")


def spelled(name):
    """The name as the kit spells it."""
    if name in OWN:
        return OWN[name]
    if name[0].isupper():
        return "".join(w[0].upper() + w[1:] for w in name.replace("′", "'").split("-"))
    name = re.sub(r"(?<=[a-z0-9])([A-Z])", lambda m: "_" + m.group(1).lower(), name.replace("′", "'"))
    return name.replace("-", "_").lower()


def files(root, ending):
    for folder, folders, names in os.walk(root):
        folders[:] = sorted(f for f in folders if f != "out")
        for n in sorted(names):
            if n.endswith(ending):
                yield os.path.join(folder, n)


def declared(text):
    """The names that a file of specs/ or proofs/ declares; the name of a goal is Rattle's, and no name of ours."""
    for line in text.split("\n"):
        m = re.match(r"(?:pub )?(?:record|data) ([^\s:(){}]+)", line)
        if m:
            yield m.group(1)
            continue
        m = re.match(r"(?:  )?(?:abbrev |unfoldable )?(?:pub )?([^\s:(){}]+(?: [^\s:(){}]+)*) :(?: (.*)|$)", line)
        if m and not re.match(r"(?:need|goal)\.", m.group(2) or ""):
            yield from m.group(1).split(" ")


def turned(text, names):
    return WORD.sub(lambda m: names.get(m.group(0), m.group(0)), text)


def antt(text, names):
    lines = []
    for line in text.split("\n"):
        m = re.search(r"(?:^|\s)--(?:\s|$)", line)
        end = m.start() if m else len(line)
        lines.append(turned(line[:end], names) + line[end:])
    return "\n".join(lines)


def rt(text, names):
    """Names in `ghost use` lines and in clauses and ghost fields; the code has none of them."""
    lines = []
    for line in text.split("\n"):
        if line.lstrip().startswith("//") or line.lstrip().startswith("println!") or '"' in line:
            lines.append(line)
            continue
        m = re.search(r"\s//", line)
        end = m.start() if m else len(line)
        lines.append(turned(line[:end], names) + line[end:])
    return "\n".join(lines)


def main():
    root = "crates"
    if not os.path.isdir(root):
        print("respell: run it at the top of the repository", file=sys.stderr)
        return 2
    seen = {}
    for path in files(root, ".antt"):
        with open(path, encoding="utf-8") as f:
            for name in declared(f.read()):
                if "-" in name or "′" in name or re.match(r"[a-z]\w*[A-Z]", name):
                    seen[name] = spelled(name)
    by_new = {}
    for old, new in sorted(seen.items()):
        by_new.setdefault(new, []).append(old)
    for new, olds in by_new.items():
        if len(olds) > 1:
            print(f"look: {', '.join(olds)} are all {new}")
    count = 0
    for ending, turn in ((".antt", antt), (".rt", rt)):
        for path in files(root, ending):
            crate = path.split(os.sep)[1]
            names = seen | THERE.get(crate, {})
            with open(path, encoding="utf-8") as f:
                old = f.read()
            new = turn(old, names)
            if new != old:
                count += 1
                with open(path, "w", encoding="utf-8") as f:
                    f.write(new)
    for path in [*files("docs", ".md"), "README.md"]:
        if os.path.exists(path):
            with open(path, encoding="utf-8") as f:
                old = f.read()
            new = re.sub(r"`[^`\n]+`", lambda m: turned(m.group(0), seen) if m.group(0)[1:-1] in seen else m.group(0), old)
            if new != old:
                count += 1
                with open(path, "w", encoding="utf-8") as f:
                    f.write(new)
    print(f"respell: {len(seen)} names, {count} files")
    return 0


if __name__ == "__main__":
    raise SystemExit(main())
