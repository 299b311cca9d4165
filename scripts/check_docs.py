"""Checks the pages against the tree: README.md, cases/README.md, docs/*.md, man/*.1 and crates/*/README.md. And checks that each edit of must-fail/ and more-edits/ can be applied.

docs/DEFINITIONS.md and docs/DEFINITIONS_BY_CRATE.md are printed from docs/definitions.order and the comments over the definitions in crates/*/specs.
A fault is one line, `page:line: what is wrong`, and the status is 1 where there is one.
"""

import itertools
import os
import re
import shutil
import subprocess
import sys
from collections import namedtuple

from edits import MORE, TRIED, files_in, why_not

ROOT = os.path.dirname(os.path.dirname(os.path.abspath(__file__)))
ALONE = "-- Of the proofs alone"
ORDER = "docs/definitions.order"
DEFINITIONS = "docs/DEFINITIONS.md"
BY_CRATE = "docs/DEFINITIONS_BY_CRATE.md"
PROMISES = "docs/PROMISES.md"
MOST_WORDS = 900
# The crates whose statuses the tables of a page have, in their order.
LAVZIMO = "lavzimo_answer"
STATUSES = {"README.md": [LAVZIMO], "docs/FORMATS.md": ["tool_answer", "rollup_answer", "summary_answer", LAVZIMO]}

Definition = namedtuple("Definition", "name crate path line words alone")

faults = []


def fault(page, line, what):
    text = f"{page}:{line}: {what}" if line else f"{page}: {what}"
    if text not in faults:
        faults.append(text)


def read(path):
    """The text of a file; one that is not there is a fault, and empty."""
    if not there(path):
        fault(path, 0, "the file is not there")
        return ""
    with open(os.path.join(ROOT, path), encoding="utf-8") as file:
        return file.read()


def there(path):
    return os.path.exists(os.path.join(ROOT, path))


# ---- the tree


def crates():
    """The crates of crates.txt, each with those that it stands on, in order."""
    found = {}
    for line in read("crates.txt").splitlines():
        head, colon, rest = line.split("#")[0].partition(":")
        if colon:
            found[head.split()[0]] = rest.split()
    return found


def files_below(folder, ending):
    for at, folders, names in os.walk(os.path.join(ROOT, folder)):
        folders[:] = sorted(f for f in folders if f not in ("out", "declared", ".git", "__pycache__"))
        for name in sorted(names):
            if name.endswith(ending):
                yield os.path.relpath(os.path.join(at, name), ROOT)


HEAD = re.compile(r"^(?:pub )?(?:abbrev (?:pub )?|(?:pub )?record |(?:pub )?data )(?!mutual\b)(\S+)")
OF_MUTUAL = re.compile(r"^  (?:pub )?(\S+) :")


def definitions_of(crate, path):
    """The definitions of one file. Lemmas, which stand without a keyword, are none."""
    lines = read(path).splitlines()
    alone = bool(lines) and lines[0].startswith(ALONE)
    found, words, mutual = [], [], False
    for number, line in enumerate(lines, 1):
        text = line.strip()
        if text.startswith("--"):
            words = [] if text.startswith("-- ----") else words + [text[2:].strip()]
            continue
        if re.match(r"^(pub )?abbrev mutual", line):
            mutual = True
            continue
        if line and not line[0].isspace():
            mutual = False
        head = HEAD.match(line) or (mutual and OF_MUTUAL.match(line))
        if head:
            found.append(Definition(head.group(1), crate, path, number, " ".join(words), alone))
        words = []
    return found


def all_definitions():
    return [
        definition
        for crate in crates()
        for path in files_below(f"crates/{crate}/specs", ".antt")
        for definition in definitions_of(crate, path)
    ]


# ---- the page of definitions


def row(definition):
    words = definition.words.replace("|", "\\|")
    path = definition.path[len("crates/"):]
    return f"| `{definition.name}` | {words} | `{path}` |"


TABLE = ["| definition | in plain words | file |", "|---|---|---|"]


def listed_by(number, line, definitions, listed):
    """The definitions of a line `@ crate/File: name name` of the order."""
    file, _, names = line[1:].partition(":")
    path = f"crates/{file.strip().replace('/', '/specs/', 1)}.antt"
    if not there(path):
        fault(ORDER, number, f"there is no file {path}")
        return
    for name in names.split():
        found = next((d for d in definitions if d.path == path and d.name == name), None)
        if found is None:
            fault(ORDER, number, f"no definition {name} in {path}")
        elif found.alone:
            fault(ORDER, number, f"{path} is of the proofs alone")
        elif found in listed:
            fault(ORDER, number, f"{name} is listed twice")
        else:
            listed.add(found)
            yield found


def pages_of_definitions(definitions):
    """The lines of both pages. A line of the order that begins with @ names rows; what no line names stands by crate on the second page."""
    listed, page = set(), []
    for number, line in enumerate(read(ORDER).splitlines(), 1):
        if line.startswith("@"):
            rows = [row(d) for d in listed_by(number, line, definitions, listed)]
            page += ([] if page and page[-1].startswith("| `") else TABLE) + rows
        else:
            page.append(line)
    others = ["# Definitions by crate", "", f"What else public clauses cite, beside what {DEFINITIONS} has in reading order."]
    for crate in crates():
        left = [d for d in definitions if d.crate == crate and d not in listed and not d.alone]
        if left:
            others += ["", f"## `{crate}`", ""] + TABLE + [row(d) for d in left]
    return {DEFINITIONS: page, BY_CRATE: others}


def check_definitions(definitions, write):
    for d in definitions:
        if not d.alone and not d.words:
            fault(d.path, d.line, f"no comment of its own over {d.name}")
    for page, lines in pages_of_definitions(definitions).items():
        check_page_of_definitions(page, "\n".join(lines) + "\n", definitions, write)


def rows_of_page(text):
    """The rows of definitions, each with the number of its line."""
    return {line: number for number, line in enumerate(text.splitlines(), 1) if line.startswith("| `")}


def check_page_of_definitions(page, text, definitions, write):
    if write:
        with open(os.path.join(ROOT, page), "w", encoding="utf-8") as file:
            file.write(text)
    if not there(page):
        fault(page, 0, "the page is not there; scripts/check_docs.sh --write writes it")
        return
    old, new = rows_of_page(read(page)), rows_of_page(text)
    for line in new:
        if line not in old:
            fault(page, 0, f"no such row: {line}")
    known = {tuple(cells(row(d))[::2]): d.alone for d in definitions}
    for line, number in old.items():
        name, path = (part.strip("`") for part in cells(line)[::2])
        if line not in new:
            fault(page, number, f"{name} of crates/{path} has another row, or none")
        elif known.get((f"`{name}`", f"`{path}`")):
            fault(page, number, f"{name} of crates/{path} is of the proofs alone, and wants no row")
    if read(page) != text:
        fault(page, 0, "differs from what is printed; scripts/check_docs.sh --write writes it anew")


# ---- rows that name clauses, functions, definitions and files

NAMES = re.compile(r"`([^`]+)`")
SOURCE = re.compile(r"^[\w./{},-]+\.(rt|antt)$")


def cells(line):
    """The cells of a row of a table; `\\|` is no border."""
    return [cell.strip().replace("\\|", "|") for cell in re.split(r"(?<!\\)\|", line.strip())[1:-1]]


def tables(text):
    """Each table of a page: the cells of its head, and the numbers and cells of its rows."""
    lines = text.splitlines()
    for at in range(len(lines) - 1):
        if lines[at].startswith("|") and re.match(r"^\|[\s:|-]+\|$", lines[at + 1]):
            rows = itertools.takewhile(lambda i: lines[i].startswith("|"), itertools.islice(itertools.count(at + 2), len(lines) - at - 2))
            yield cells(lines[at]), [(i + 1, cells(lines[i])) for i in rows]


def parts(cell):
    """The parts of a cell between semicolons: the names before ` of `, those behind it, and the files."""
    for part in cell.split(";"):
        names = NAMES.findall(part)
        if not names:
            continue
        paths = [n for n in names if SOURCE.match(n)]
        before, of, behind = part.partition(" of ")
        first = [n for n in NAMES.findall(before) if not SOURCE.match(n)]
        second = [n for n in NAMES.findall(behind) if not SOURCE.match(n)]
        yield first, second, paths


def with_crates(path):
    return path if path.startswith("crates/") else f"crates/{path}"


def is_missing(page, line, path):
    """Whether there is no such file, which is a fault of the page that names it."""
    if there(path):
        return False
    fault(page, line, f"there is no file {path.removeprefix('crates/')}")
    return True


FUNCTION = re.compile(r"\bfn (\w+)")


def functions(text):
    """Each function of a source file, with the names of its clauses; a clause without a name has the name ``."""
    found = list(FUNCTION.finditer(text))
    for at, head in enumerate(found):
        end = found[at + 1].start() if at + 1 < len(found) else len(text)
        yield head.group(1), re.findall(r"\bensures (\w*) ?\{", text[head.start():end])


def check_clauses(page, line, cell):
    for first, second, paths in parts(cell):
        if len(paths) != 1:
            fault(page, line, f"a clause wants one file: {cell}")
            continue
        path = with_crates(paths[0])
        if is_missing(page, line, path):
            continue
        text = read(path)
        for name in second or first:
            owner, _, function = name.rpartition("::")
            clauses = [found for f, found in functions(text) if f == function]
            if not clauses:
                fault(page, line, f"no function {function} in {path}")
            if owner and not re.search(rf"\b(impl|trait|struct|enum)\b[^{{]*\b{owner}\b", text):
                fault(page, line, f"no type {owner} in {path}")
            for clause in (first if second else [""]) if clauses else []:
                if not any(clause in found for found in clauses):
                    fault(page, line, f"no clause {clause or 'without a name'} of {function} in {path}")


def check_names(page, line, cell, definitions):
    for first, second, paths in parts(cell):
        if len(paths) != 1:
            fault(page, line, f"a definition wants one file: {cell}")
            continue
        path = with_crates(paths[0])
        if is_missing(page, line, path):
            continue
        for name in first + second:
            if not any(d.name == name and d.path == path for d in definitions):
                fault(page, line, f"no definition {name} in {path}")


def check_rows(page, text, definitions):
    for head, rows in tables(text):
        whole = re.match(r"clause of `(\w+)`, `([^`]+)`$", head[0])
        if whole:
            check_whole(page, rows, *whole.groups())
        for line, row_cells in rows:
            if len(row_cells) != len(head):
                fault(page, line, f"a row of {len(row_cells)} cells in a table of {len(head)}")
                continue
            for title, cell in zip(head, row_cells):
                if title == "clause":
                    check_clauses(page, line, cell)
                elif title == "definition" and page not in (DEFINITIONS, BY_CRATE):
                    check_names(page, line, cell, definitions)


IN_FILE = re.compile(r"((?:`\w+`(?:, | and ))*`\w+`) in `([\w./]+\.antt)`")


def check_prose(page, text, definitions):
    """Sentences that say in which file definitions stand, whole or by the file's name alone."""
    for number, line in enumerate(text.splitlines(), 1):
        for names, path in [] if line.startswith("|") else IN_FILE.findall(line):
            for name in NAMES.findall(names):
                if not any(d.name == name and d.path.endswith("/" + with_crates(path).split("/", 1)[-1]) for d in definitions):
                    fault(page, number, f"no definition {name} in {path}")


def check_whole(page, rows, function, path):
    """A table of all the clauses of one function."""
    if is_missing(page, rows[0][0], with_crates(path)):
        return
    clauses = next((found for f, found in functions(read(with_crates(path))) if f == function), [])
    told = [name for _, row_cells in rows for name in NAMES.findall(row_cells[0])]
    for name in clauses:
        if told.count(name) != 1:
            fault(page, rows[0][0], f"the clause {name} of {function} stands {told.count(name)} times in its table")
    for name in told:
        if name not in clauses:
            fault(page, rows[0][0], f"no clause {name} of {function} in {path}")


def promises(page):
    for head, rows in tables(read(page)):
        if head[1:] == ["clause", "definition"]:
            return rows
    return []


def check_first_promises():
    """The promises of README are the first ones of their page."""
    first = [row_cells for _, row_cells in promises(PROMISES)]
    for at, (line, row_cells) in enumerate(promises("README.md")):
        if at >= len(first) or row_cells != first[at]:
            fault("README.md", line, f"promise {at + 1} is not that of {PROMISES}")


# ---- files, options, crates

FOLDERS = ["crates", "cases", "docs", "examples", "scripts", "bench", "src", "specs", "proofs", TRIED, MORE]
ALONE_NAME = r"(?<![\w./*-])\w[\w.-]*\.(?:rt|antt|md|sh|py|edit|order)\b"
HOLE = re.compile(r"NAME|<|\.\.\.")


def mention():
    """What looks like a file: a path that begins with a known folder, or a name that ends as our files do."""
    folders = "|".join(FOLDERS + list(crates()) + [rf"\w+/(?:src|specs|proofs|{TRIED}|{MORE})"])
    return re.compile(rf"(?<![\w./-])(?:{folders})/[\w./{{}},*-]*[\w}}*/]|{ALONE_NAME}")


def spread(word):
    """The words that braces stand for: a{b,c} is ab and ac."""
    braces = re.search(r"\{([^{}]*)\}", word)
    if not braces:
        return [word]
    return [w for middle in braces.group(1).split(",") for w in spread(word[:braces.start()] + middle + word[braces.end():])]


def file_names():
    names = set()
    for at, folders, found in os.walk(ROOT):
        folders[:] = [f for f in folders if f not in ("out", ".git", "__pycache__")]
        names.update(found)
    return names


def is_mentioned(word, page, names):
    if "*" in word:
        return True
    home = os.path.dirname(page)
    crate = "/".join(page.split("/")[:2]) if page.startswith("crates/") else ""
    places = [word, f"{home}/{word}", f"crates/{word}", f"{crate}/{word}"]
    return any(there(place.strip("/")) for place in places) or ("/" not in word and word in names)


def check_mentions(page, text, names, pattern):
    for number, line in enumerate(text.splitlines(), 1):
        for match in pattern.finditer(line):
            if HOLE.search(match.group(0)):
                continue
            for word in spread(match.group(0)):
                if not is_mentioned(word, page, names):
                    fault(page, number, f"there is no file {word}")


OPTION = re.compile(r"(?<![\w-])--[a-z][a-z-]*")


def options_of_group_tool():
    """The options of the command of group_tool, as pipe_words makes it."""
    names = re.search(r"let names = \[(.*?)\];", read("crates/pipe_words/src/command.rt"), re.DOTALL)
    return {f"--{name}" for name in re.findall(r'"([a-z][a-z-]*)"', names.group(1))}


def options_of_lavzimo():
    """The options of the command of lavzimo, as lavzimo_words makes it, beside help and the version."""
    found = re.findall(r'(?:name: |of_columns\(|of_run\(\s*|\.long\()"([a-z][a-z-]*)"', read("crates/lavzimo_words/src/command.rt"))
    return {f"--{name}" for name in found}


APART = {"--help", "--version"}


def statuses_of(crate):
    """The statuses that the sources of a program's answer name, of those that programs share and its own."""
    own = f"crates/{crate}/src/status.rt"
    known = re.findall(r"pub const (\w+): u8 = (\d+);", read("crates/tool_shell/src/status.rt") + (read(own) if there(own) else ""))
    sources = "".join(read(path) for path in files_below(f"crates/{crate}/src", ".rt") if path != own)
    return {number for name, number in known if re.search(rf"\b{name}\b", sources)}


def script_options(names):
    return {option for name in names for option in OPTION.findall(read(name))}


def check_options(page, text, options):
    scripts = sorted(set(files_below("scripts", "")) | set(files_below("bench", "")))
    for number, line in enumerate(text.splitlines(), 1):
        used = [s for s in scripts if s in line]
        used += [other for s in used for other in scripts if os.path.basename(other) in read(s)]
        known = options | script_options(used)
        for option in OPTION.findall(line):
            if option not in known and not re.search(r"\brt [a-z]", line):
                fault(page, number, f"there is no option {option}")


def check_table_of_options(page, options):
    """The table of options of a page has those of a program, each once."""
    rows = [(line, row_cells) for head, found in tables(read(page)) if head[0] == "option" for line, row_cells in found]
    told = [option for _, row_cells in rows for option in OPTION.findall(row_cells[0])]
    for option in sorted(set(told) | options):
        if told.count(option) != (option in options):
            has = "has it" if option in options else "has none"
            fault(page, rows[0][0] if rows else 0, f"the option {option} stands {told.count(option)} times in the table of options, and the program {has}")


def check_statuses(page, text, programs):
    """The tables of statuses have those of their programs, each at least once: the first is that of the first program, and so on."""
    found = [rows for head, rows in tables(text) if head[0] in ("status", "exit status")]
    if len(found) != len(programs):
        fault(page, 0, f"{len(found)} tables of statuses, for {len(programs)} programs")
    for rows, crate in zip(found, programs):
        known = statuses_of(crate)
        for status in sorted({row_cells[0] for _, row_cells in rows} ^ known, key=int):
            what = "no row for the status" if status in known else "the program has no status"
            fault(page, rows[0][0], f"{what} {status}")


def check_manual(page, options, statuses):
    """A manual page has the options and the statuses of its program, each once, and mandoc takes it."""
    items = [line for line in read(page).splitlines() if line.startswith(".It ")]
    told = [f"-{name}" for name in re.findall(r"^\.It Fl (-[a-z-]+)", "\n".join(items), re.M)]
    found = re.findall(r"^\.It (\d+)$", "\n".join(items), re.M)
    for what, seen, wanted in (("option", told, options), ("status", found, statuses)):
        for one in sorted(set(seen) | set(wanted)):
            if seen.count(one) != (one in wanted):
                fault(page, 0, f"the {what} {one} stands {seen.count(one)} times, and the program has {'it' if one in wanted else 'none'}")
    if shutil.which("mandoc"):
        lint = subprocess.run(["mandoc", "-Tlint", page], cwd=ROOT, capture_output=True, text=True, check=False).stdout
        for line in lint.splitlines():
            fault(page, 0, line.removeprefix(f"mandoc: {page}:"))


def check_version():
    """The version that lavzimo tells is that of the package."""
    path = "crates/lavzimo_words/src/command.rt"
    told, version = re.findall(r'\.version\("([^"]*)"\)', read(path)), read("VERSION").strip()
    if told != [version]:
        fault(path, 0, f"the version is {', '.join(told)}, and in VERSION {version}")


def rooms():
    """The rooms of crates.txt, in order: the word of each heading, and its crates."""
    found = []
    for line in read("crates.txt").splitlines():
        heading = re.match(r"# ([\w-]+): ", line)
        if heading:
            found.append((heading.group(1), []))
        elif found and ":" in line and not line.startswith("#"):
            found[-1][1].append(line.partition(":")[0].split()[0])
    return found


def check_map(page):
    """The tables of crates are those of the rooms of crates.txt, in their order, below headings that begin alike."""
    lines = read(page).splitlines()
    headings = [line[4:].partition(":")[0].lower() for line in lines if line.startswith("### ")]
    told = [[NAMES.findall(row_cells[0])[0] for _, row_cells in rows] for head, rows in tables(read(page)) if head == ["crate", "what it has"]]
    if len(told) != len(headings) or not told:
        fault(page, 0, f"{len(headings)} headings of rooms, and {len(told)} tables of crates")
    for (room, known), heading, names in zip(rooms(), headings, told):
        if room != heading:
            fault(page, 0, f"the room {room} stands under the heading {heading}")
        if known != names:
            fault(page, 0, f"the room {room} has {', '.join(known)}, and its table {', '.join(names)}")
    if len(rooms()) != len(told):
        fault(page, 0, f"{len(rooms())} rooms, and {len(told)} tables of crates")


def check_edits():
    """Each edit can be applied, wherever it stands."""
    for crate in crates():
        for folder in (TRIED, MORE):
            for name in files_in(ROOT, crate, folder):
                why = why_not(ROOT, crate, folder, name)
                if why:
                    fault(f"crates/{crate}/{folder}/{name}", *why)


def main():
    write = "--write" in sys.argv[1:]
    definitions = all_definitions()
    check_definitions(definitions, write)
    pages = ["README.md", "cases/README.md"] + sorted(files_below("docs", ".md"))
    pages += [f"crates/{crate}/README.md" for crate in crates()]
    names, pattern = file_names(), mention()
    options, of_lavzimo = options_of_group_tool(), options_of_lavzimo()
    for page in pages:
        text = read(page)
        check_rows(page, text, definitions)
        check_prose(page, text, definitions)
        check_mentions(page, text, names, pattern)
        check_options(page, text, options | of_lavzimo | APART)
        check_statuses(page, text, STATUSES.get(page, []))
    check_first_promises()
    check_table_of_options("README.md", of_lavzimo)
    check_table_of_options("docs/FORMATS.md", options)
    check_manual("man/group_tool.1", options, statuses_of("tool_answer"))
    check_manual("man/lavzimo.1", of_lavzimo | APART, statuses_of(LAVZIMO))
    for name in ("rollup", "summary"):
        if there(f"crates/{name}_tool"):
            check_manual(f"man/{name}_tool.1", set(), statuses_of(f"{name}_answer"))
    check_version()
    check_map("docs/ARCHITECTURE.md")
    check_edits()
    words = sum(bool(re.search(r"\w", word)) for word in read("README.md").split())
    if words > MOST_WORDS:
        fault("README.md", 0, f"{words} words, where {MOST_WORDS} are the most")
    for line in faults:
        print(line)
    counts = f"{len(pages)} pages, {sum(not d.alone for d in definitions)} definitions"
    print(f"check_docs: {len(faults)} faults" if faults else f"check_docs: ok, {counts}", file=sys.stderr)
    return 1 if faults else 0


sys.exit(main())
