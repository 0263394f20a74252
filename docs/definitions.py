#!/usr/bin/env python3
"""Writes docs/DEFINITIONS.md, the index of what the contracts speak of, from the comments in crates/*/specs.

    docs/definitions.py          writes it
    docs/definitions.py --check  ends with status 1 where it is not what would be written
"""
import glob, os, re, sys

os.chdir(os.path.join(os.path.dirname(os.path.abspath(__file__)), ".."))
INDEX = "docs/DEFINITIONS.md"
HEAD = """# Definitions

What the contracts speak of: each definition of `crates/*/specs`, file by file, with what it means. They are written in antt; `abbrev` is a definition by cases, `×` reads "and", `⊎` "or", `≡` "equals". This page is written by `docs/definitions.py` from the comments over the definitions.
"""
DEFINITION = re.compile(r"^\s*(?:(?:abbrev|unfoldable) pub|pub (?:unfoldable |abbrev )?(?:data|record)?) ?(\S+)")
FIELD = re.compile(r"^\s+pub (?!data |record )\S+ :")


def crates():
    for line in open("crates.txt", encoding="utf-8"):
        name = line.split("#")[0].partition(":")[0].split()
        if name and os.path.isdir(f"crates/{name[0]}/specs"):
            yield name[0]


def heading(lines):
    """The comment at the head of a file, as one text."""
    text = []
    for line in lines:
        if not line.startswith("-- "):
            break
        text.append(line[3:].strip())
    return " ".join(text)


def definitions(lines, start):
    """The definitions of a file in order, each with the comment over it; those without one join the one before."""
    rows, comment, section = [], [], ""
    for line in lines[start:]:
        bare = line.strip()
        if bare.startswith("-- ----"):
            section, comment = bare.lstrip("- ").strip(), []
        elif bare.startswith("-- "):
            comment.append(bare[3:])
        elif not bare:
            comment = []
        elif bare.startswith("infix"):
            continue
        else:
            found = DEFINITION.match(line)
            if found and not FIELD.match(line) and not bare.startswith("pub mod"):
                name = found.group(1)
                if comment or not rows or section:
                    rows.append(([name], " ".join(comment) or section))
                else:
                    rows[-1][0].append(name)
                section = ""
            if not line.startswith(" ") or found:
                comment = []
    return rows


def page():
    out = [HEAD]
    for crate in crates():
        out.append(f"## {crate}\n")
        for file in sorted(glob.glob(f"crates/{crate}/specs/*.antt")):
            if file.endswith("/Lib.antt"):
                continue
            lines = open(file, encoding="utf-8").read().split("\n")
            head = heading(lines)
            rows = definitions(lines, sum(1 for _ in iter_head(lines)))
            if not rows:
                continue
            out.append(f"**`{os.path.relpath(file, 'crates')}`** {head}\n")
            out.append("| Definition | Means |\n|---|---|")
            for names, text in rows:
                shown = ", ".join(f"`{name}`" for name in names).replace("|", "\\|")
                out.append(f"| {shown} | {text.replace('|', chr(92) + '|')} |")
            out.append("")
    return "\n".join(out)


def iter_head(lines):
    for line in lines:
        if not line.startswith("--"):
            return
        yield line


def main():
    text = page()
    if sys.argv[1:] == ["--check"]:
        if open(INDEX, encoding="utf-8").read() != text:
            sys.exit(f"{INDEX} is not what docs/definitions.py writes; run it")
        return
    with open(INDEX, "w", encoding="utf-8") as f:
        f.write(text)


main()
