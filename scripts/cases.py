#!/usr/bin/env python3
"""Keeps the stored cases: crates/orca_cases/data/FAMILY.cases, each case with its answer. And draws new ones by chance.

    scripts/cases.py list                        the families, and whether all are compared
    scripts/cases.py add FAMILY CASES [ANSWERS]  adds the cases of a file
    scripts/cases.py renew [FAMILY..]            shows the stored answers that the model does not give
    scripts/cases.py draw KIND [COUNT]           prints new cases with the answers of the model, to be added
    scripts/cases.py try [KIND..]                draws new cases, and shows which the program answers otherwise

The head of crates/orca_cases/src/main.rt says what a case is. In the file CASES it has its answer between `gives` and
`end`, or under its name in the file ANSWERS. Bytes are texts or hexadecimal, and are stored as texts where they can be,
in short forms. A new family begins with a comment that says what it shows.

Answers come from the model of the rules in `model/`, a second definition in Python, and never from the program. A case
without an answer gets the model's. An answer that you worked out by hand has to be the model's too; where they differ,
compare both with the rules. `renew --write` stores the model's. It also writes `stdin` and `stdout` anew, as they have
to be once a family is gone.

The model leaves out rooms, boards beside one another and the largest songs. For such a case without an answer `add`
shows what the program gives, and stores nothing. Compare it with the rules; then `--checked-by-hand` stores it. In the
same way `renew` shows for it what the program gives.

The program is crates/orca_cases/out/orca_cases, which `rt run` builds in its crate, or `--program PROGRAM`. The status
is 1 where something differs.
"""
import argparse
import collections
import difflib
import itertools
import os
import random
import re
import subprocess
import sys
import tempfile

TOP = os.path.dirname(os.path.dirname(os.path.realpath(__file__)))
sys.path.insert(0, TOP)
sys.dont_write_bytecode = True      # the checkout stays as it is

from model.cases import answer_of
from model.draw import KINDS, drawn
from model.program import Unanswered

CRATE = os.path.join(TOP, "crates/orca_cases")
DATA = os.path.join(CRATE, "data")
# What the program reads, and what it has to print.
LISTS = ("stdin", "stdout")
# The greatest cost of a song that the model is asked for.
MOST_COST = 5_000_000
# An answer of so many signs is stored once in a family.
LONG_ANSWER = 64
# The lines that end in bytes, and in how many words of them.
BYTES = {"word": 1, "file": 1, "bytes": 1, "send": 1, "told": 1, "cells": 1, "marks": 1, "vars": 1, "event udp": 1,
         "event osc": 2}
SIGNS = {"\n": "\\n", "\r": "\\r", "\t": "\\t", "\x1b": "\\e", '"': '\\"', "\\": "\\\\"}
MEANT = {sign[1]: byte for byte, sign in SIGNS.items()}
# Where a row of a text begins: after the end of a line, and before an escape by which a picture goes to another place.
ROW = re.compile(r"(?<=\n)(?!\Z)|(?!\A)(?=\x1b\[\d*;)")
TEXT = re.compile(r'"((?:[^"\\]|\\[nrte"\\])*)"')
# What is stored in a short form: what begins a row of a picture or sets a style, and a part of a text or of hexadecimal
# that stands there several times. What a backslash begins already is taken as a whole.
STYLES = {"": "0", "1": "1", "2": "2", "4": "4", "7": "7", "35": "3", "45": "5", "91": "9", "94": "8"}
STYLE_OF = {sign: style for style, sign in STYLES.items()}
PICTURE = re.compile(r"(\\\\)|\\e\[(\d+);1H\\e\[0m|\\e\[0m(?:\\e\[([1247]|[34]5|9[14])m)?")
AGAIN = re.compile(r"(\\.)|([^\\)])\2{15,}")
AGAIN_IN_HEX = re.compile(r"(.)\1{15,}|(..)\2{7,}|(....)\3{3,}")
# What the short forms are in a line, those of rows, and a word that can stand beside others.
SHORT = re.compile(r"\\(?:(\\)|\((\d+)\*([^)]*)\)|\[(\d+)\]|([0-57-9]))")
ROWS = re.compile(r"^  (\d*)\|(.*)$", re.MULTILINE)
PAINTED = re.compile(r"^  (\[.*)$", re.MULTILINE)
PLAIN = re.compile(r'word "([^ "\\]+)"')

# What stands above a case, the lines that ask, and those of the answer; each a text. A case may have no answer.
Case = collections.namedtuple("Case", "above asked answer")


def fails(text):
    sys.exit(f"cases.py: {text}")


def read(path):
    with open(path, encoding="ascii") as file:
        return file.read()


def write(path, text):
    with open(path, "w", encoding="ascii") as file:
        file.write(text)


# Short forms.

def times(found):
    part = found[found.lastindex]
    return found[0] if part[0] == "\\" else f"\\({len(found[0]) // len(part)}*{part})"


def short_sign(found):
    if found[1]:
        return found[0]
    return f"\\[{found[2]}]" if found[2] else f"\\{STYLES[found[3] or '']}"


def short_rows(rows):
    """Rows as they are stored: one that ends with the end of a line behind a bar, with how often it stands there, and one
    of a picture without quotes."""
    for row, same in itertools.groupby(rows):
        count = len(list(same))
        if row.endswith("\\n") and not row.endswith(" \\n"):
            yield f"{count if count > 1 else ''}|{row[:-2]}"
        elif row.startswith("\\[") and not row.endswith(" "):
            yield from [row[1:]] * count
        else:
            yield from [f'"{row}"'] * count


def long_sign(found):
    again, count, part, row, style = found.groups()
    if again:
        return found[0]
    if count:
        return part * int(count)
    if row:
        return f"\\e[{row};1H\\e[0m"
    return "\\e[0m" + (f"\\e[{STYLE_OF[style]}m" if STYLE_OF[style] else "")


def written_out(text):
    """Lines without short forms but `words`."""
    text = ROWS.sub(lambda found: "\n".join([f'  "{found[2]}\\n"'] * int(found[1] or 1)), text)
    text = PAINTED.sub(lambda found: f'  "\\{found[1]}"', text)
    return SHORT.sub(long_sign, text)


# Bytes in hexadecimal, and as texts.

def text_of(word):
    """A word of hexadecimal as it is stored."""
    if not re.fullmatch("-|([0-9a-f]{2})+", word):
        fails(f"{word} is no text in quotes and no hexadecimal")
    text = bytes.fromhex(word.lstrip("-")).decode("latin-1")
    if not text or not all(" " <= sign <= "~" or sign in SIGNS for sign in text):
        return AGAIN_IN_HEX.sub(times, word)
    rows = ("".join(SIGNS.get(sign, sign) for sign in row) for row in ROW.split(text))
    rows = [AGAIN.sub(times, PICTURE.sub(short_sign, row)) for row in rows]
    return "".join(f"\n  {row}" for row in short_rows(rows)) if len(rows) > 1 else f'"{rows[0]}"'


def hex_of(text):
    """What stands between the quotes of a text, in hexadecimal."""
    return re.sub(r"\\(.)", lambda found: MEANT[found[1]], text).encode("latin-1").hex() or "-"


def count_of_bytes(words):
    key = " ".join(words[:2]) if words[0] == "event" else words[0]
    return 0 if words[-1] == "none" else BYTES.get(key, 0)


def in_hex(text):
    """Lines with all bytes in hexadecimal, and each word of the command line in one of its own."""
    for line in written_out(text).replace('"\n  "', "").replace('\n  "', ' "').splitlines():
        if line.startswith("words "):
            yield from (f"word {hex_of(word)}" for word in line.split(" ")[1:])
        else:
            yield TEXT.sub(lambda found: hex_of(found[1]), line) if count_of_bytes(line.split(" ")) else line


def line_as_stored(line):
    """A line in hexadecimal as it is stored."""
    words = line.split(" ")
    count = count_of_bytes(words)
    if not count:
        return AGAIN.sub(times, line)
    return " ".join(words[:-count] + [text_of(word) for word in words[-count:]]).replace(" \n", "\n")


def as_stored(text):
    lines = [line_as_stored(line) for line in in_hex(text)]
    stored = ""
    for is_plain, some in itertools.groupby(lines, lambda line: bool(PLAIN.fullmatch(line))):
        if is_plain:
            stored += f"words {' '.join(PLAIN.fullmatch(line)[1] for line in some)}\n"
        else:
            stored += "".join(f"{line}\n" for line in some)
    return stored


# Families.

def families():
    return sorted(name[:-6] for name in os.listdir(DATA) if name.endswith(".cases"))


def path_of(family):
    return os.path.join(DATA, f"{family}.cases")


def cases_of(text):
    """The cases of a text by their names."""
    found, parts = {}, re.findall(r"^(?:.*\n)*?end\n", text, re.MULTILINE)
    for part in parts:
        case = re.fullmatch(r"((?:.*\n)*?)case (\w+)\n((?:.*\n)*?)(?:gives(?: as (\w+))?\n((?:.*\n)*))?end\n", part)
        if not case or case[2] in found or case[4] and case[4] not in found:
            fails(f"this is no case, the second one of its name, or its answer is that of no earlier case:\n{part}")
        found[case[2]] = Case(case[1], case[3], found[case[4]].answer if case[4] else case[5])
    if re.search(r"^case ", text[len("".join(parts)):], re.MULTILINE):
        fails("the last case has no end")
    return found


def text_of_cases(cases):
    """Cases as they are stored. A long answer that an earlier case has is named by that case."""
    text, first = "", {}
    for name, case in cases.items():
        other = first.setdefault(case.answer, name)
        is_again = other != name and len(case.answer) >= LONG_ANSWER
        answer = f" as {other}\n" if is_again else f"\n{case.answer or ''}"
        text += f"{case.above}case {name}\n{case.asked}gives{answer}end\n"
    return text


def answers_of(text):
    """The answers of a text by the names of their cases."""
    found = re.findall(r"^case (\w+)\n((?:(?!case ).*\n)*)", text, re.MULTILINE)
    return {name: as_stored(answer) for name, answer in found}


def cases_that_differ(program, folder, family):
    """The cases of a family whose answers the program does not give, each with the answer that it gives."""
    if not os.access(program, os.X_OK):
        fails(f"{program} isn't built: rt run in crates/orca_cases builds it")
    done = subprocess.run([program], cwd=folder, input=f"family {family}\n", stdout=subprocess.PIPE, text=True)
    if done.returncode != 0:
        fails(f"{program} ends with {done.returncode}")
    return {name: case._replace(answer=as_stored(case.answer)) for name, case in cases_of(done.stdout).items()}


def show(stored, other, title):
    lines = (text.splitlines() for text in (stored or "", other))
    print("\n".join(difflib.unified_diff(*lines, f"{title}, stored", f"{title}, given", lineterm="")))


# The model.

def model_answer(name, case):
    """The answer of the model, or none where it has none."""
    lines = list(in_hex(case.asked))
    try:
        return as_stored("\n".join(answer_of(lines))) if cost_of(lines) <= MOST_COST else None
    except Unanswered:
        return None
    except (ValueError, IndexError) as error:
        return fails(f"{name} has a line that is none: {error}")


def cost_of(lines):
    """What a song costs the model: the cells that are no `.` in all of its frames."""
    words = [bytes.fromhex(line[5:].replace("-", "")) for line in lines if line.startswith("word ")]
    if words[:1] != [b"smf"] or not words[2:3] or not words[2].isdigit():
        return 0
    texts = [bytes.fromhex(line.split(" ")[2].lstrip("-")) for line in lines if line.startswith("file ")]
    return int(words[2]) * sum(len(text) - text.count(b".") for text in texts)


def new_family(folder, cases):
    """Stores cases in a folder as the family `new`, for the program."""
    write(os.path.join(folder, "new.cases"), text_of_cases(cases))


# What is asked for.

def lists():
    """The texts of both lists."""
    counts = {family: len(cases_of(read(path_of(family)))) for family in families()}
    return ("".join(f"family {family}\n" for family in counts),
            "".join(f"{family}: {count} of {count} agree\n" for family, count in counts.items()))


def write_lists():
    for name, text in zip(LISTS, lists()):
        write(os.path.join(CRATE, name), text)


def list_families(_):
    for line in lists()[1].splitlines():
        family, count = line.split(": ")
        head = read(path_of(family)).split("\n")[0]
        print(f"{family:18} {count.split()[0]:>4}  {head.lstrip('# ')}")
    for name, text in zip(LISTS, lists()):
        if read(os.path.join(CRATE, name)) != text:
            fails(f"crates/orca_cases/{name} isn't what the families make it: renew --write writes it")


def new_cases(words):
    """The new cases as they are to be stored."""
    cases = {name: Case(case.above, as_stored(case.asked), as_stored(case.answer) if case.answer else None)
             for name, case in cases_of(read(words.cases)).items()}
    if words.answers:
        answers = answers_of(read(words.answers))
        cases = {name: case._replace(answer=answers.get(name, case.answer)) for name, case in cases.items()}
    known = [name for family in families() for name in cases_of(read(path_of(family))) if name in cases]
    if known:
        fails(f"these are stored: {' '.join(known)}")
    return cases


def with_answers(words, cases):
    """The cases with all their answers: given, the model's, or the program's, if they were checked by hand."""
    answers = {name: model_answer(name, case) for name, case in cases.items()}
    wrong = [name for name, case in cases.items() if case.answer and answers[name] not in (None, case.answer)]
    for name in wrong:
        show(answers[name], cases[name].answer, name)
    if wrong:
        fails(f"nothing is stored: the model gives another answer to {' '.join(wrong)}")
    cases = {name: case._replace(answer=case.answer or answers[name]) for name, case in cases.items()}
    with tempfile.TemporaryDirectory() as folder:
        new_family(folder, cases)
        differ = cases_that_differ(words.program, folder, "new")
    for name, case in differ.items():
        show(cases[name].answer, case.answer, name)
    empty = [name for name in cases if not cases[name].answer]
    if empty and not words.checked_by_hand:
        fails(f"nothing is stored: compare the answers to {' '.join(empty)} with the rules, and say --checked-by-hand")
    print(f"{len(cases)} cases, {len(empty)} of them checked by hand; {len(differ) - len(empty)} answers are not given")
    return {name: case._replace(answer=differ[name].answer) if name in empty else case for name, case in cases.items()}


def add(words):
    cases, path = new_cases(words), path_of(words.family)
    text = read(path) if os.path.exists(path) else ""
    text = text_of_cases({**cases_of(text), **with_answers(words, cases)})
    if not text.startswith("# "):
        fails("a new family begins with a comment that says what it shows")
    write(path, text)
    write_lists()


def other_answers(words, family, stored):
    """The cases of a family with another answer than the stored one: the model's, or else the program's."""
    answers = {name: model_answer(name, case) for name, case in stored.items()}
    given = {}
    if None in answers.values():
        given = {name: case.answer for name, case in cases_that_differ(words.program, DATA, family).items()}
    answers = {name: answer or given.get(name, stored[name].answer) for name, answer in answers.items()}
    return {name: answer for name, answer in answers.items() if answer != stored[name].answer}


def renew(words):
    wrong = 0
    for family in words.families or families():
        stored = {name: Case(case.above, as_stored(case.asked), as_stored(case.answer))
                  for name, case in cases_of(read(path_of(family))).items()}
        changed = other_answers(words, family, stored)
        wrong += len(changed)
        for name, answer in changed.items():
            show(stored[name].answer, answer, f"{family}: {name}")
            stored[name] = stored[name]._replace(answer=answer)
        print(f"{family}: {len(changed)} of {len(stored)} answers are not the stored ones")
        if words.write:
            write(path_of(family), text_of_cases(stored))
    if words.write:
        write_lists()
    return wrong > 0 and not words.write


def new_ones(kinds, seed, count):
    """So many new cases, of each kind as many, with the answers of the model."""
    cases = {}
    for number, kind in enumerate(kinds):
        if kind not in KINDS:
            fails(f"{kind} is no kind of cases: {' '.join(KINDS)}")
        share = (count + number) // len(kinds)
        for place, lines in enumerate(drawn(kind, seed, share)):
            asked = as_stored("\n".join(lines))
            cases[f"{kind}_{seed}_{place}"] = Case("", asked, as_stored("\n".join(answer_of(lines))))
    return cases


def draw(words):
    print(text_of_cases(new_ones([words.kind], words.seed, words.count)), end="")


def try_new(words):
    kinds = words.kinds or [kind for kind in KINDS if kind not in words.without]
    print(f"{words.count} new cases of the seed {words.seed}", flush=True)
    cases = new_ones(kinds, words.seed, words.count)
    with tempfile.TemporaryDirectory() as folder:
        new_family(folder, cases)
        differ = cases_that_differ(words.program, folder, "new")
    for name, case in differ.items():
        print(text_of_cases({name: cases[name]}), end="")
        show(cases[name].answer, case.answer, name)
    print(f"{len(cases) - len(differ)} of {len(cases)} agree")
    return len(differ) > 0


def main():
    parser = argparse.ArgumentParser(description=__doc__, formatter_class=argparse.RawDescriptionHelpFormatter)
    parser.add_argument("--program", default=os.path.join(CRATE, "out/orca_cases"), type=os.path.abspath)
    kinds = parser.add_subparsers(required=True)
    kinds.add_parser("list").set_defaults(work=list_families)
    adds = kinds.add_parser("add")
    adds.set_defaults(work=add)
    adds.add_argument("family")
    adds.add_argument("cases")
    adds.add_argument("answers", nargs="?")
    adds.add_argument("--checked-by-hand", action="store_true")
    renews = kinds.add_parser("renew")
    renews.set_defaults(work=renew)
    renews.add_argument("families", nargs="*")
    renews.add_argument("--write", action="store_true")
    draws = kinds.add_parser("draw")
    draws.set_defaults(work=draw)
    draws.add_argument("kind", help=" ".join(KINDS))
    draws.add_argument("count", type=int, nargs="?", default=10)
    tries = kinds.add_parser("try")
    tries.set_defaults(work=try_new)
    tries.add_argument("kinds", nargs="*", help=" ".join(KINDS))
    tries.add_argument("--count", type=int, default=300)
    tries.add_argument("--without", nargs="+", default=[], help="kinds that are left out")
    for some in (draws, tries):
        some.add_argument("--seed", type=int, default=random.randrange(10 ** 9))
    words = parser.parse_args()
    try:
        sys.exit(1 if words.work(words) else 0)
    except OSError as error:
        fails(error)


if __name__ == "__main__":
    main()
