#!/usr/bin/env python3
# manual.py FOLDER VERSION DATE HOME ORCA PERFORM: what an installed program has of the pages, so that nothing is said twice.
# Into FOLDER go the man pages orca.1 and perform.1, the completion for bash with the words and options of docs/COMMANDS.md,
# and the pages that a player reads, without links to those that stay here. Man pages and completion call the commands ORCA
# and PERFORM, and HOME the folders that they have in share.
import functools
import itertools
import os
import re
import subprocess
import sys
import tempfile
import textwrap

TOP = os.path.dirname(os.path.dirname(os.path.realpath(__file__)))
PLAYERS = ["README.md", "CHANGELOG.md", *(f"docs/{name}.md" for name in
           "COMMANDS FIRST KEYS OPERATORS PIECES SESSIONS SET SOUND THEOREM".split())]
PERFORM = "`./perform`"
# The built program, and its status for words that it does not read.
PROGRAM, INVALID = "crates/orca/out/orca", 1
# How a section of docs/COMMANDS.md is called in a man page; the others keep their names.
SECTIONS = {"What is printed": "OUTPUT", "Statuses": "EXIT STATUS"}
# What ./orca and ./perform are called where they are installed, and the name of their folders.
NAMES = {"orca": "orca", "perform": "perform", "home": "orca"}


def read(name):
    with open(os.path.join(TOP, name), encoding="utf-8") as file:
        return file.read()


def cells_of(line):
    return [cell.strip().replace("\\|", "|") for cell in re.split(r"(?<!\\)\|", line.strip().strip("|"))]


def kind_of(line):
    """The kind of block that a line belongs to; a text is one line."""
    kinds = {"#": "head", "|": "table", "- ": "list"}
    return next((kind for sign, kind in kinds.items() if line.startswith(sign)), "text")


def blocks_of(text):
    """The blocks of a page: pairs of a kind (head, code, table, list or text) and what it holds."""
    for number, part in enumerate(re.split(r"^```.*\n((?:.*\n)*?)```$", text, flags=re.MULTILINE)):
        if number % 2:
            yield "code", part.split("\n")[:-1]
            continue
        for kind, lines in itertools.groupby(filter(None, part.split("\n")), kind_of):
            lines = list(lines)
            if kind == "table":
                yield kind, [cells_of(line) for line in lines[:1] + lines[2:]]
            elif kind == "list":
                yield kind, [line[2:] for line in lines]
            else:
                yield from ((kind, line) for line in lines)


def sections_of(name):
    """The sections of a page by their heads; what stands above them has none."""
    found, head = {"": []}, ""
    for kind, held in blocks_of(read(name)):
        if kind == "head":
            head = held.lstrip("# ") if held.startswith("## ") else head
            found.setdefault(head, [])
        else:
            found[head].append((kind, held))
    return found


# Man pages.

def plain(text):
    """As roff prints it; programs are called by their names alone."""
    text = re.sub(r"(?<![\w.])\./(orca|perform)\b", lambda found: NAMES[found[1]], text)
    return text.replace("\\", "\\e").replace("^", "\\(ha").replace("~", "\\(ti")


def literal(text):
    """As it is typed."""
    return plain(text).replace("-", "\\-").replace("'", "\\(aq").replace("`", "\\(ga")


def code(text):
    """A name in italics where it stands for something, as GRID, and else in bold."""
    text = re.sub(r"^(orca|perform)(?= [A-Za-z-])", lambda found: NAMES[found[1]], text)
    return " ".join(f"\\fI{word}\\fR" if re.fullmatch(r"\[?[A-Z]+\]?(\.\.\.)?", word) else f"\\fB{word}\\fR"
                    for word in literal(text).split(" "))


def inline(text):
    """A text with code, bold words and links. A link to a page says its name."""
    text = re.sub(r"!\[[^]]*\]\([^)]*\)", "", text)
    text = re.sub(r"\[([^]]*)\]\(#[^)]*\)", r"\1", text)
    text = re.sub(r"\[(?:\.\./|docs/)*([^]]*)\]\((?:\.\./|docs/)*([^)#]*)[^)]*\)",
                  lambda link: link[1] if link[1] in (link[2], link[2][:-3]) else f"{link[1]} ({link[2]})", text)
    parts = re.split(r"`([^`]*)`", text)
    for i, part in enumerate(parts):
        parts[i] = code(part) if i % 2 else re.sub(r"\*\*([^*]*)\*\*", r"\\fB\1\\fR", plain(part))
    return "".join(parts)


def wrapped(text):
    """The lines of a text, each sentence on lines of its own."""
    lines = []
    for sentence in re.split(r"(?<=[.:!?]) (?=[A-Z(\\])", inline(text)):
        lines += textwrap.wrap(sentence, 76, break_long_words=False, break_on_hyphens=False)
    return [re.sub(r"^(?=[.'])", r"\\&", line) for line in lines]


def page_code(lines):
    return [".PP", ".RS 4", ".EX", *(re.sub(r"^(?=\.)", r"\\&", literal(line)) for line in lines), ".EE", ".RE"]


def page_table(rows):
    """A paragraph for each row, under its first cell. The heads of the third cell and the next ones are said again."""
    lines = []
    for first, *others in rows[1:]:
        lines += [".TP", inline(first) if "`" in first else f"\\fB{plain(first)}\\fR"]
        for number, (head, cell) in enumerate(zip(rows[0][1:], others)):
            if cell not in ("", "none"):
                lines += [".br", *wrapped(f"{head.capitalize()}: {cell}")] if number else wrapped(cell)
    return lines


def page_of(blocks):
    lines = []
    for kind, held in blocks:
        if kind == "code":
            lines += page_code(held)
        elif kind == "table":
            lines += page_table(held)
        elif kind == "list":
            for item in held:
                lines += [".IP \\(bu 2", *wrapped(item)]
        else:
            lines += [".PP", *wrapped(held)]
    return lines


def section(name, lines):
    """A section of a man page. It begins with no paragraph of its own."""
    return [f".SH {name}", *(lines[1:] if lines[:1] == [".PP"] else lines)]


def head_of(name, title, version, date):
    return [f".TH {literal(NAMES[name].upper())} 1 {date} \"orca {version}\" \"User Commands\"",
            *section("NAME", [f"{literal(NAMES[name])} \\- {title}"])]


def files_and_others(other):
    home = NAMES["home"]
    files = [(f"../share/{home}/pieces", "the pieces; this and the next paths are seen from the folder of the command"),
             (f"../share/doc/{home}", "the pages of this version, and `PROVED`, which says what was proved by what"),
             ("../share/bash-completion/completions", "the completion for bash")]
    return [*section("FILES", page_table([["", ""], *([f"`{name}`", text] for name, text in files)])),
            *section("SEE ALSO", [f".BR {literal(NAMES[other])} (1)"])]


def page_of_orca(commands, version, date):
    lines = head_of("orca", "live-coding sequencer on a grid of characters", version, date)
    synopsis = []
    for form, *_ in rows_of(commands, ""):
        some = " [OPTION]..." if options_of_words()[option_of([form])] else ""
        synopsis += [".br", code("orca " + form.strip("`") + some)]
    lines += section("SYNOPSIS", synopsis[1:])
    lines += section("DESCRIPTION", page_of(sections_of("README.md")[""][:1]))
    above = [block for block in commands[""] if block[0] != "text"]
    lines += section("COMMANDS", page_of([block for block in above if block[0] != "code"]))
    for name, blocks in commands.items():
        if name and name != PERFORM:
            lines += section(SECTIONS.get(name, name.upper()), page_of(blocks))
    examples = commands[""][[kind for kind, _ in commands[""]].index("code"):]
    lines += section("EXAMPLES", [*wrapped("Here `pieces` is a link to the folder of the pieces."), *page_of(examples)])
    return lines + files_and_others("perform")


def page_of_perform(commands, version, date):
    lines = head_of("perform", "plays a piece in a terminal", version, date)
    lines += section("SYNOPSIS", [code("perform PIECE [OPTION]..."),
                                  *(line for form, *_ in rows_of(commands, PERFORM) for line in (".br", inline(form)))])
    lines += section("DESCRIPTION", page_of(commands[PERFORM]))
    lines += section("OPTIONS", page_table([["option", ""], *(
        row for row in rows_of(commands, "Options") if option_of(row) in options_of_perform())]))
    for name, blocks in sections_of("docs/KEYS.md").items():
        lines += section(name.upper(), page_of(blocks)) if name else []
    lines += section("EXIT STATUS", page_of(commands["Statuses"]))
    examples = [re.sub(r"pieces/(\w+)\.orca", r"\1", line) for line in
                dict.fromkeys(re.findall(r"\./perform [^`\n|]*[^`\n| ]", read("docs/COMMANDS.md")))
                if not re.search(r"\[|PIECE|--join", line)]
    lines += section("EXAMPLES", [*wrapped("Each piece is named as it came with the program."), *page_code(examples)])
    return lines + files_and_others("orca")


# The words and options of docs/COMMANDS.md.

def rows_of(commands, name):
    """The rows of the tables of a section, without their heads."""
    return [row for kind, held in commands[name] if kind == "table" for row in held[1:]]


def option_of(row):
    return row[0].strip("`").split()[0]


def reads(folder, words):
    """Whether the program reads these words. No file is in the folder, so there is nothing to play."""
    return subprocess.run([os.path.join(TOP, PROGRAM), *words], cwd=folder, stdin=subprocess.DEVNULL, timeout=60,
                          stdout=subprocess.DEVNULL, stderr=subprocess.DEVNULL).returncode != INVALID


@functools.lru_cache(None)
def options_of_words():
    """The options of each word: those of the tables that the built program reads with it."""
    commands, options = sections_of("docs/COMMANDS.md"), {}
    with tempfile.TemporaryDirectory() as folder:
        for form, *_ in rows_of(commands, ""):
            word, *names = form.strip("`").split()
            # No two names are the same, since a room wants them apart; HANDS is at most 8.
            words = [word, *(str(number + 1) for number in range(len(names)))]
            # A value is a number, or a word that the row of the option names.
            options[word] = [option_of(row) for row in rows_of(commands, "Options")
                             if any(reads(folder, [*words, option_of(row), value])
                                    for value in ["10", *re.findall(r"`(\w+)`", row[1])])]
    return options


def options_of_perform():
    """Those of `play` and `jam`, but for the room, which `perform` gives by itself, and the journal, which can't be given with it."""
    return [option for option in options_of_words()["jam"] if option not in ("--journal", "--room")]


def completion(commands):
    options = dict(options_of_words())
    words = " ".join(options)
    own = [option for form, *_ in rows_of(commands, PERFORM) for option in re.findall(r"--[a-z]+", form)]
    options["perform"] = [*dict.fromkeys([*own, *options_of_perform()])]
    options["recovery"], options["discard"] = ["--number", "--save", "--limit"], ["--number"]
    table = " ".join(f"[{word}]='{' '.join(names)}'" for word, names in options.items())
    text = read("completions/orca.in").replace("@words@", words).replace("@options@", table)
    return text.replace("@orca@", NAMES["orca"]).replace("@perform@", NAMES["perform"])


# Pages.

def page_alone(name):
    """A page without links to pages that stay in the repository, and without the points of lists that begin with one."""
    def link(found):
        target = os.path.normpath(os.path.join(os.path.dirname(name), found[2].split("#")[0]))
        is_here = target in PLAYERS or not target.endswith(".md") or found[2].startswith("#")
        return found[0] if is_here else found[1]
    lines = []
    for line in read(name).split("\n"):
        cut = re.sub(r"\[([^]]*)\]\(([^)\s]*)\)", link, line)
        if cut == line or not line.startswith("- ["):
            lines.append(cut)
    return "\n".join(lines)


def write(folder, name, text):
    path = os.path.join(folder, name)
    os.makedirs(os.path.dirname(path), exist_ok=True)
    with open(path, "w", encoding="utf-8") as file:
        file.write(text)


def main():
    if len(sys.argv) != 7:
        sys.exit("usage: manual.py FOLDER VERSION DATE HOME ORCA PERFORM")
    folder, version, date, *names = sys.argv[1:]
    NAMES.update(zip(("home", "orca", "perform"), names))
    commands = sections_of("docs/COMMANDS.md")
    write(folder, "orca.1", "\n".join([*page_of_orca(commands, version, date), ""]))
    write(folder, "perform.1", "\n".join([*page_of_perform(commands, version, date), ""]))
    write(folder, "completion", completion(commands))
    for name in PLAYERS:
        write(folder, f"pages/{name}", page_alone(name))


if __name__ == "__main__":
    main()
