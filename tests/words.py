#!/usr/bin/env python3
"""A table of command lines for crates/vr_words_cases, with what the program has to say of each.

words.py            compares the crate's stdin and stdout with the table
words.py --write    writes them

The expected answers are computed here from the grammar alone: a list of words is accepted if it is one of the spellings of a
command, and the index of a faulty list is that of the first word that no accepted list has after the words before it. Whether
an accepted list begins with some words is found by trying completions, not by a scan.
"""
import functools
import itertools
import pathlib
import sys

CRATE = pathlib.Path(__file__).resolve().parent.parent / "crates" / "vr_words_cases"

# An option's default, and its least and greatest number; the store has a name.
OPTIONS = {
    "--fuel": (50_000_000, 0, 10**12),
    "--workers": (4, 1, 16),
    "--sessions": (10**9, 1, 10**9),
    "--port": (8080, 0, 65535),
    "--store": ("", None, None),
}
# A command's set, its operands (a name or a number) and its options.
COMMANDS = {
    "hash": ("c", ["file"], []),
    "check": ("c", ["file"], []),
    "flows": ("c", ["file"], []),
    "replay": ("c", ["file", "file"], ["--fuel"]),
    "make": ("c", ["count"], []),
    "serve": ("s", ["file", "file"], list(OPTIONS)),
}


def is_plain(word):
    return word != "" and not word.startswith("-")


def number(word, least, most):
    """The number that the word stands for, or None."""
    if word == "" or any(c not in "0123456789" for c in word):
        return None
    if len(word) > 1 and word[0] == "0":
        return None
    return int(word) if least <= int(word) <= most else None


def option_value(option, word):
    _, least, most = OPTIONS[option]
    if least is None:
        return word if is_plain(word) else None
    return number(word, least, most)


def asked(kind, words):
    """What the words ask for, or None: each split of the words into items is tried."""
    if not words or words[0] not in COMMANDS or COMMANDS[words[0]][0] != kind:
        return None
    name, (_, operands, options) = words[0], COMMANDS[words[0]]
    found = []

    def split(place, taken, given):
        if place == len(words):
            if len(taken) == len(operands):
                found.append((taken, given))
            return
        word = words[place]
        if is_plain(word) and len(taken) < len(operands):
            value = word if operands[len(taken)] == "file" else number(word, 1, 1000)
            if value is not None:
                split(place + 1, taken + [(place, value)], given)
        for option in options:
            if option in given:
                continue
            if word == option and place + 1 < len(words):
                value = option_value(option, words[place + 1])
                if value is not None:
                    split(place + 2, taken, {**given, option: value})
            if word.startswith(option + "="):
                value = option_value(option, word[len(option) + 1 :])
                if value is not None:
                    split(place + 1, taken, {**given, option: value})

    split(1, [], {})
    assert len(found) <= 1, words
    if not found:
        return None
    taken, given = found[0]
    value = lambda option: given.get(option, OPTIONS[option][0])
    files = " ".join(f"{place}:{text}" for place, text in taken)
    if name == "make":
        return f"make {taken[0][1]}"
    if name == "replay":
        return f"replay {value('--fuel')} {files}"
    if name == "serve":
        numbers = " ".join(str(value(o)) for o in ("--fuel", "--workers", "--sessions", "--port"))
        return f"serve {numbers} '{value('--store')}' {files}"
    return f"{name} {files}"


# Words with which a list of words may go on: one of each kind is enough.
NEXT = ["a", "1"]
FIRST = list(COMMANDS)


@functools.lru_cache(maxsize=None)
def is_begun(kind, words):
    """Whether an accepted list begins with the words: at most three more of NEXT complete each one that does."""
    if not words:
        return True
    return any(
        asked(kind, list(words) + list(more)) is not None
        for count in range(4)
        for more in itertools.product(NEXT, repeat=count)
    )


def answer(kind, words):
    said = asked(kind, words)
    if said is not None:
        return said
    for place in range(len(words)):
        if not is_begun(kind, tuple(words[: place + 1])):
            return f"usage {place}"
    return f"usage {len(words)}"


def lines_of(name):
    kind, operands, options = COMMANDS[name]
    files = ["P", "K"][: len(operands)] if operands[0] == "file" else ["7"]
    yield kind, [name, *files]
    for count in range(len(files)):
        yield kind, [name, *files[:count]]
    yield kind, [name, *files, "x"]
    other = "s" if kind == "c" else "c"
    yield other, [name, *files]
    # A bad operand in each place.
    for place in range(len(files)):
        for bad in ("", "-", "-x", "--", "--help", "-1"):
            yield kind, [name, *files[:place], bad, *files[place + 1 :]]
    # Each option of any command in each place, in two words and in one.
    for option, (_, least, most) in OPTIONS.items():
        good = "S" if least is None else str(most)
        for spelled in ([option, good], [option + "=" + good]):
            for place in range(len(files) + 1):
                yield kind, [name, *files[:place], *spelled, *files[place:]]
            # Twice.
            yield kind, [name, *spelled, *files, *spelled]
            yield kind, [name, *spelled, option, good, *files]
            yield kind, [name, *spelled, option + "=" + good, *files]
        # Without a value at the end.
        yield kind, [name, option]
        yield kind, [name, *files, option]
        yield kind, [name, option, good]
        if option not in options:
            continue
        values = ["", "-", "-1", "+1", "01", "00", "1x", "x", " 1", "1 ", "=1", "--fuel", "0x1", "\u0661"]
        if least is not None:
            values += [str(least), str(most), str(most + 1), str(10 * most + 9), "0", "18446744073709551616"]
            if least:
                values.append(str(least - 1))
        for value in values:
            yield kind, [name, option, value, *files]
            yield kind, [name, option + "=" + value, *files]
            yield kind, [name, *files, option + "=" + value]
    # Words that are nearly options.
    for near in ("--Fuel", "--fuel ", "-fuel", "--fue", "--fuell", "--fuell=1", "--=1", "=", "--fuel==1", "fuel=1"):
        yield kind, [name, near, *files]
        yield kind, [name, near, "1", *files]


def table():
    for kind in "cs":
        yield kind, []
        for word in ("", "-", "Hash", "hash ", "hashes", "fly", "--fuel", "--fuel=1", "P"):
            yield kind, [word]
            yield kind, [word, "P"]
    for name in COMMANDS:
        yield from lines_of(name)
    for count in ("0", "1", "1000", "1001", "999", "01", "+1", "1.0", "", "-1", "99999999999999999999"):
        yield "c", ["make", count]
    full = [["--fuel", "5"], ["--workers=2"], ["P"], ["--sessions", "3"], ["--port=0"], ["K"], ["--store", "S"]]
    for shift in range(len(full)):
        words = sum(full[shift:] + full[:shift], [])
        yield "s", ["serve", *words]
        yield "s", ["serve", *words, "x"]
        for cut in range(1, len(words)):
            yield "s", ["serve", *words[:cut]]
    yield "s", ["serve", "--store=a=b", "P", "K"]
    yield "s", ["serve", "--store==", "P", "K"]
    yield "s", ["serve", "--store=-", "P", "K"]
    yield "s", ["serve", "--store=a-b", "P", "K"]
    yield "c", ["replay", "--fuel", "01", "P", "S"]
    yield "c", ["replay", "P"]


def main():
    rows = list(dict.fromkeys((kind, tuple(words)) for kind, words in table()))
    given = "".join("|".join([kind, *words]) + "\n" for kind, words in rows)
    wanted = "".join(answer(kind, list(words)) + "\n" for kind, words in rows)
    texts = {CRATE / "stdin": given, CRATE / "stdout": wanted}
    if sys.argv[1:] == ["--write"]:
        for path, text in texts.items():
            path.write_text(text, encoding="utf-8")
        print(f"{len(rows)} command lines")
        return
    for path, text in texts.items():
        if path.read_text(encoding="utf-8") != text:
            sys.exit(f"{path} is not the table's: tests/words.py --write")
    print(f"{len(rows)} command lines are the table's")


main()
