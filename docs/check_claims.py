#!/usr/bin/env python3
"""Checks that what the pages name is there. It prints nothing and ends with 0 where all is well; else it lists each fault and ends with 1.

    docs/check_claims.py

Of each crate's README.md, and of docs/CLAIMS.md, it checks the claims: each function, type, impl, law and definition in the crate of which
it is said, and each clause in the contract of its function. Of all pages it checks each file and link, each name of code, each name that is
said to be of a crate, and that no cell of a table is longer than 200 characters. Of two contracts that promise the same it checks that the
clauses of the first stand in the second, word for word. It reads texts and proves nothing: a clause that is there
may still say something else.

A claim is an item of a list, below a heading "Proved" or one that names a crate in ticks. It ends with where it is proved, in parentheses:

    - What is promised (`Type::function`, `function`: `clause`, `clause.field`, result; law `name`; definition `IsRecord`: `field`).

"result" is the clause without a name. A group is of functions, or begins with "law", "type", "definition" or "impl", some of them with an s; an impl without
clauses claims all that its trait promises.
"""
import functools
import glob
import os
import re
import sys

TOP = os.path.dirname(os.path.dirname(os.path.realpath(__file__)))
NAME = r"[A-Za-z_][\w'-]*"
KEYWORDS = r"(?:(?:abbrev|unfoldable|opaque|pub) )*"
TICKED = re.compile(r"`([^`]+)`")
LONGEST_CELL = 200


# the sources


@functools.lru_cache(maxsize=None)
def text_of(path):
    """A file without the comments of code."""
    with open(path, encoding="utf-8") as file:
        return re.sub(r"^\s*//.*", "", file.read(), flags=re.M)


@functools.lru_cache(maxsize=None)
def code(crate):
    return tuple(sorted(glob.glob(f"{TOP}/crates/{crate}/src/**/*.rt", recursive=True)))


@functools.lru_cache(maxsize=None)
def specs(crate):
    """The files of definitions and of laws: specs/ and proofs/."""
    return tuple(it for part in ("specs", "proofs") for it in sorted(glob.glob(f"{TOP}/crates/{crate}/{part}/**/*.antt", recursive=True)))


@functools.lru_cache(maxsize=None)
def crates():
    return tuple(sorted(os.path.basename(os.path.dirname(it)) for it in glob.glob(f"{TOP}/crates/*/src")))


def head_of(text, at):
    """What the item at this place of a file belongs to: the text from impl or trait to its brace, or nothing at the file's margin."""
    heads = [it for it in re.finditer(r"^(?:pub )?(impl\b|trait\b)[^{;]*", text, re.M) if it.start() < at]
    if not heads:
        return ""
    closed = re.compile(r"^\}", re.M).search(text, heads[-1].end())
    return "" if closed and closed.start() < at else " ".join(heads[-1][0].split())


def is_head_of(head, name):
    """Whether that is the head of an impl of this type, or of this trait."""
    subject = re.sub(r"^(?:pub )?(?:impl|trait)\s*(?:<(?:[^<>]|<[^<>]*>)*>\s+)?", "", head)
    return re.match(rf"{re.escape(name)}\b", subject.split(" for ")[-1].strip()) is not None


def is_of(place, module, head):
    """Whether an item belongs to this place: a type, a module, or nothing."""
    if module.endswith("tests") and place != module:
        return False
    return place == module or is_head_of(head, place) if place else not head


def contracts(crate, function):
    """The contracts of the functions of that name: of Type::name the type's, of module::name the module's."""
    place, _, name = function.rpartition("::")
    found = []
    for path in code(crate):
        module, text = os.path.basename(path)[: -len(".rt")], text_of(path)
        for it in re.finditer(rf'^[ ]*(?:pub(?:\([a-z]+\))? )?(?:const )?(?:unsafe )?(?:extern "C" )?fn {re.escape(name)}\b', text, re.M):
            if is_of(place, module, head_of(text, it.start())):
                # a contract ends where the body begins, at the item's own indentation, or at a semicolon
                end = re.compile(r"^ *\{|\{$|;$", re.M).search(text, it.end())
                found.append(text[it.start() : end.start() if end else len(text)])
    return found


def clauses_of(contract):
    """What a contract promises, by the names of its clauses, 'result' for one that has none."""
    parts = re.split(r"\b(ensures|requires)\*?(?: (\w+))? \{", contract)
    return {name or "result": text for kind, name, text in zip(parts[1::3], parts[2::3], parts[3::3]) if kind == "ensures"}


def type_clauses(crate, name):
    for path in code(crate):
        it = re.search(rf"^(?:pub )?(?:struct|enum) {name}\b.*?^\}}", text_of(path), re.M | re.S)
        if it:
            return set(re.findall(r"ghost (\w+)", it[0]))
    return None


def impl_of(crate, trait, name):
    """The text of the impl of this trait for this type."""
    for path in code(crate):
        it = re.search(rf"^impl\b[^{{;]*\b{trait}\b[^{{;]* for {name}\b.*?^\}}", text_of(path), re.M | re.S)
        if it:
            return it[0]
    return None


@functools.lru_cache(maxsize=None)
def definitions(crate):
    """The definitions and laws of a crate: each name with the text of all that have it."""
    found = {}
    for path in specs(crate):
        name, margin = None, 0
        for line in text_of(path).splitlines():
            it = re.match(rf"( *){KEYWORDS}(?:(module|record|data) )?({NAME})", line)
            if it and it[2] == "module":
                margin = len(it[1]) + 2
            elif it and len(it[1]) <= margin:
                name, margin = it[3], len(it[1])
            if name:
                found[name] = found.get(name, "") + line + "\n"
    return found


def has_law(crate, name):
    return re.search(rf"^ *{KEYWORDS}{re.escape(name)} :", definitions(crate).get(name, ""), re.M) is not None


def has_field(text, name):
    return re.search(rf"^ +pub {re.escape(name)} :", text, re.M) is not None


@functools.lru_cache(maxsize=None)
def imports(crate):
    """The names that a crate's code takes from the definitions of others, each with the crate that has it."""
    found = [it for path in code(crate) for it in re.findall(r"ghost use Rattle\.(\w+)\.specs\.[\w.]+\.\{([^}]*)\}", text_of(path))]
    return {name: other for other, names in found if other in crates() for name in re.findall(NAME, names)}


def leads_to(crate, text, field):
    """Whether a record that this text names, of the crate or of one from which its code takes the name, or one that is named there, and so on, has
    that field."""
    named = set(re.findall(NAME, text))
    taken = {(other, name) for name, other in imports(crate).items() if name in named}
    return reaches(crate, named, field) or any(reaches(other, {name}, field) for other, name in taken)


def reaches(crate, names, field):
    """Whether a record of the crate with one of these names, or one that is named there, and so on, has that field."""
    known, seen, left = definitions(crate), set(), set(names)
    while left:
        name = left.pop()
        seen.add(name)
        if has_field(known.get(name, ""), field):
            return True
        left |= set(re.findall(NAME, known.get(name, ""))) - seen
    return False


# one claim


def elsewhere(has):
    found = [it for it in crates() if has(it)]
    return f"; {', '.join(found)} has it" if found else ""


def wrong_law(crate, name, clauses):
    return [] if has_law(crate, name) else [f"no law {name}" + elsewhere(lambda it: has_law(it, name))]


def wrong_definition(crate, name, clauses):
    text = definitions(crate).get(name)
    if text is None:
        return [f"no definition {name}" + elsewhere(lambda it: name in definitions(it))]
    return [f"definition {name} has no {it}" for it in clauses if not has_field(text, it)]


def wrong_type(crate, name, clauses):
    found = type_clauses(crate, name)
    if found is None:
        return [f"no type {name}" + elsewhere(lambda it: type_clauses(it, name) is not None)]
    return [f"type {name} has no {it}" for it in clauses if it not in found]


def wrong_impl(crate, subject, clauses):
    trait, _, name = subject.partition(" for ")
    text = impl_of(crate, trait, name)
    if text is None:
        return [f"no impl {subject}" + elsewhere(lambda it: impl_of(it, trait, name))]
    return [f"impl {subject} has no {it}" for it in clauses if not re.search(rf"ghost {it}\b", text)]


def wrong_function(crate, name, clauses):
    found = contracts(crate, name)
    if not found:
        return [f"no function {name}" + elsewhere(lambda it: contracts(it, name))]
    texts = {it: text for contract in found for it, text in clauses_of(contract).items()}
    wrong = [] if clauses else [f"{name} without a clause"]
    for clause in clauses:
        first, _, field = clause.partition(".")
        if first not in texts:
            wrong.append(f"{name} has no clause {first}")
        elif field and not leads_to(crate, texts[first], field):
            wrong.append(f"clause {first} of {name} leads to no field {field}")
    return wrong


KINDS = {"law": wrong_law, "laws": wrong_law, "definition": wrong_definition, "definitions": wrong_definition, "type": wrong_type, "impl": wrong_impl}


def wrong_claim(crate, text):
    """What is wrong with a claim of that crate."""
    proof = re.search(r"\(([^()]*)\)\.$", text)
    if not proof:
        return ["a claim without where it is proved"]
    wrong = []
    for group in proof[1].split(";"):
        subjects, _, clauses = group.partition(": ")
        check = KINDS.get(subjects.split("`")[0].strip(), wrong_function)
        named = TICKED.findall(clauses) + ["result"] * bool(re.search(r"\bresult\b", TICKED.sub("", clauses)))
        for name in TICKED.findall(subjects):
            wrong += check(crate, name, named)
        if not TICKED.findall(subjects):
            wrong.append(f"a group without a name: {group.strip()}")
    return wrong


# the pages


def pages():
    return [it for name in ("README.md", "docs/*.md", "examples/README.md", "bench/README.md", "crates/*/README.md") for it in sorted(glob.glob(f"{TOP}/{name}"))]


@functools.lru_cache(maxsize=None)
def lines_of(page):
    """The lines of a page by their numbers, without what is only planned and without blocks of code."""
    kept, planned, code_may_begin = [], False, True
    with open(page, encoding="utf-8") as file:
        for at, line in enumerate(file, 1):
            is_code = code_may_begin and line.startswith("    ")
            code_may_begin = is_code or not line.strip()
            planned = line.startswith("## Planned") or planned and not line.startswith("#")
            if not planned and not is_code:
                kept.append((at, line.rstrip("\n")))
    return kept


def crate_of(page):
    """The crate whose page this is, or nothing."""
    folder = os.path.dirname(page)
    return os.path.basename(folder) if os.path.dirname(folder) == f"{TOP}/crates" else None


def claims(page):
    """The claims of a page: the line, the crate and the text of each."""
    own, crate, found, is_open = crate_of(page), None, [], False
    for at, line in lines_of(page):
        if line.startswith("## "):
            named = [it for it in TICKED.findall(line) if it in crates()]
            crate = own if line.startswith("## Proved") else named[0] if named else None
        if line.startswith("- ") and crate:
            found.append([at, crate, line[2:]])
            is_open = True
        elif line.startswith("  ") and is_open:
            found[-1][2] += " " + line.strip()
        else:
            is_open = False
    return found


def claim_faults(page):
    if crate_of(page) is None and os.path.basename(page) != "CLAIMS.md":
        return []
    return [(at, f"{crate}: {it}") for at, crate, text in claims(page) for it in wrong_claim(crate, text)]


def file_faults(page):
    """Files that a page names, from the top of the repository or from the page, and links."""
    found = []
    for at, line in lines_of(page):
        named = re.findall(r"`((?:crates|docs|examples|tools|bench|src|specs|proofs)/[\w/.*-]+)`", line)
        linked = re.findall(r"\]\(([\w/.-]+)\)", line)
        for it in named + linked:
            is_there = it in named and glob.glob(f"{TOP}/{it}") or glob.glob(f"{os.path.dirname(page)}/{it}")
            if not is_there and "NAME" not in it and not it.endswith("/out"):
                found.append((at, f"no file {it}"))
    return found


@functools.lru_cache(maxsize=None)
def words_of(crate):
    """All words of a crate's sources, and the names of its modules."""
    found = set()
    for path in code(crate) + specs(crate):
        found |= {*re.findall(r"[A-Za-z_]\w*", text_of(path)), *re.findall(NAME, text_of(path)), os.path.basename(path).split(".")[0]}
    return found


@functools.lru_cache(maxsize=None)
def all_words():
    found = {*os.listdir(TOP), *crates()}.union(*map(words_of, crates()))
    for path in [f"{TOP}/{it}" for it in ("heap", "HANDLES", "crates.txt")] + glob.glob(f"{TOP}/examples/**/*", recursive=True) + glob.glob(f"{TOP}/bench/*"):
        if os.path.isfile(path):
            found |= {*re.findall(r"[A-Za-z_]\w*", text_of(path)), os.path.basename(path), os.path.basename(path).split(".")[0]}
    return found


def word_faults(page):
    """Names of code, as `a_name` and `Type::name`. A digest of check_trusted.py may look like one."""
    ticked = [(at, it) for at, line in lines_of(page) for it in TICKED.findall(line) if not re.fullmatch(r"[0-9a-f]{12}", it)]
    named = [(at, it) for at, it in ticked if re.fullmatch(rf"{NAME}(?:::{NAME})*", it)]
    return [(at, f"nothing is named {it}") for at, it in named if not all_words().issuperset(it.split("::"))]


def place_faults(page):
    """Names that are said to be of a crate: `a`, `b` of `crate`."""
    found = []
    for at, line in lines_of(page):
        for names, crate in re.findall(rf"((?:`[^`]+`(?:, | and ))*`[^`]+`) of `({NAME})`", line):
            if crate in crates():
                parts = {part for it in TICKED.findall(names) for part in it.split("::")}
                found += [(at, f"{crate} has no {it}") for it in sorted(parts - words_of(crate))]
    return found


def cell_faults(page):
    rows = [(at, line) for at, line in lines_of(page) if line.startswith("|")]
    return [(at, f"a cell of {len(it.strip())} characters") for at, line in rows for it in re.split(r"(?<!\\)\|", line) if len(it.strip()) > LONGEST_CELL]


# Calls of which the second keeps what the first promises: each clause of the first is one of the second's.
KEPT = [(("heap_program", "run_alone"), ("thread_program", "run"))]


def kept_faults(first, second):
    promised, kept = ({name: text.split("}\n")[0].split() for name, text in clauses_of(contracts(*it)[0]).items()} for it in (first, second))
    if not promised:
        return [f"crates/{first[0]}: {first[1]} promises nothing"]
    return [f"crates/{second[0]}: {second[1]} has the clause {name} of {first[1]} in other words or not at all" for name in promised if kept.get(name) != promised[name]]


def faults():
    for first, second in KEPT:
        yield from kept_faults(first, second)
    for crate in crates():
        if not os.path.isfile(f"{TOP}/crates/{crate}/README.md"):
            yield f"crates/{crate}: no README.md"
    for page in pages():
        for check in (claim_faults, file_faults, word_faults, place_faults, cell_faults):
            for at, it in check(page):
                yield f"{os.path.relpath(page, TOP)}:{at}: {it}"


found = list(faults())
for it in found:
    print(it)
sys.exit(bool(found))
