#!/usr/bin/env python3
"""Checks what has to be believed: the definitions behind the program's contract, and that specs/ holds nothing else.

    docs/check_trusted.py [--list CLAUSE | --text CLAUSE]

A clause of `run`, of `play_script_then_graph` or of `play_then_graph` rests on the definitions that it cites, on those that these cite, and so on; and
on what the traits promise that the call is generic in, as the disk's. Their numbers stand in a table of docs/GUARANTEE.md, with a digest of their
texts and of the clauses', so that what has to be believed changes only where the page does. Each definition of specs/ has to be one that some
contract rests on, free of proofs, and no contract may rest on one of proofs/. A record that README.md or that page quotes has to be quoted as it
stands. It prints what is wrong, and nothing if all is well. With --list it prints the definitions behind one clause, or behind all with --list run, by
file; with --text it prints the clause, the traits of its call, the types of the code and the definitions themselves, with their comments: all that has to
be read to know what the clause says.
"""
import collections
import functools
import glob
import hashlib
import os
import re
import sys

TOP = os.path.dirname(os.path.dirname(os.path.realpath(__file__)))
PAGE = "docs/GUARANTEE.md"
# the calls whose clauses are the theorems, and where each stands
RUN = "crates/thread_program/src/program.rt", "run"
BOX = ("crates/black_box/src/told_run.rt", "play_script_then_graph"), ("crates/black_box/src/one_run.rt", "play_then_graph")
# the clauses that have a row of their own, besides that of all clauses of the call
ROWS = "one_tale", "one_history", "crash_safe", "headline"
TOKEN = re.compile(r"[^\s(){}\[\],;]+")
USE = re.compile(r"^(?:pub )?use ([\w.]+)\.\{(.*)\}$")
ALIAS = re.compile(r"^(?:pub )?use ([\w.]+) as (\w+)$")
ITEM = re.compile(r"^(?:(?:abbrev|unfoldable|pub|record|data)\s+)*([^\s:({=]+)")
GHOST_USE = re.compile(r"ghost use (Rattle\.[\w.]+)(?:\.\{(.*?)\}| as (\w+))\s*;", re.S)
PROOF = re.compile(r"\b(?:omega|simp|elim|grind|search|rw|cc)\b")
# laws that a trait's ghost members cite, and which an import reaches in specs/ alone
LAWS = {"Rattle.disk_model.specs.MemoryLaws"}

Item = collections.namedtuple("Item", "name text lines")


def named(names):
    """The names of an import by what they are called here."""
    pairs = [it.strip().split(" as ") for it in names.split(",") if it.strip()]
    return {it[-1].strip(): it[0].strip() for it in pairs}


class Module:
    """A file of specs/: its definitions by name, its imports, and its short names of other files."""

    def __init__(self, path):
        self.path, self.items, self.imports, self.aliases = path, {}, {}, {}
        with open(path, encoding="utf-8") as file:
            lines = file.read().split("\n")
        self.read([it for it in lines if not self.reads_import(it)])

    def reads_import(self, line):
        use, alias = USE.match(line), ALIAS.match(line)
        if use:
            self.imports.update({here: (use[1], there) for here, there in named(use[2]).items()})
        elif alias:
            self.aliases[alias[2]] = alias[1]
        return bool(use or alias)

    def read(self, lines, indent="", head=""):
        """Takes the definitions at this margin, and those of each block of parameters one step further in."""
        for block in blocks(lines, indent):
            first = block[0][len(indent) :]
            if first.startswith("module "):
                end = next(at for at, line in enumerate(block) if line.endswith("where"))
                self.read(block[end + 1 :], indent + "  ", "\n".join([head, *block[: end + 1]]))
                continue
            item = Item(ITEM.match(first)[1], "\n".join([head, *block]), len(block))
            self.items[item.name] = item
            if first.startswith(("pub data", "data")):
                for it in block[1:]:
                    made = re.match(r"\s+(?:pub )?(\S+) :", it)
                    if made:
                        self.items[made[1]] = item


def blocks(lines, indent):
    """The items at this margin, each a list of its lines, without comments and blank lines."""
    found, name = [], None
    for line in lines:
        text = re.sub(r"(?:^|\s)--.*", "", line).rstrip()
        if not text:
            continue
        inner = text.startswith(indent + " ")
        starts = not inner and not text.startswith(indent + "mod ") and not text.startswith(indent + "pub mod ")
        if starts and (re.match(r"(?:abbrev|unfoldable|pub|record|data|module)\b|[^\s:({=]+ :", text[len(indent) :])):
            found.append([text])
        elif found:
            found[-1].append(text)
    return found


@functools.lru_cache(maxsize=None)
def source(crate):
    """The text of a crate's source files."""
    return "\n".join(text_of(it) for it in sorted(glob.glob(f"{TOP}/crates/{crate}/src/**/*.rt", recursive=True)))


@functools.lru_cache(maxsize=None)
def modules():
    found = {}
    for path in sorted(glob.glob(f"{TOP}/crates/*/specs/**/*.antt", recursive=True)):
        if not path.endswith("/Lib.antt"):
            found["Rattle." + os.path.relpath(path, f"{TOP}/crates")[: -len(".antt")].replace("/", ".")] = Module(path)
    return found


def cited(module, word):
    """Where a word of a definition is defined, if it is in a file of specs/."""
    head, _, rest = word.partition(".")
    if head in module.aliases and rest:
        return module.aliases[head], rest.split(".")[0]
    for name in (word, head):
        if name in module.imports:
            return module.imports[name]
        if name in module.items:
            return None, name
    return None


@functools.lru_cache(maxsize=None)
def ghosts(crate, name):
    """What a type's ghost fields and its view cite: contracts see its values through them."""
    text, found = source(crate), set()
    for head in (rf"(?:struct|enum) {name}\b", rf"impl\b[^{{;]*\bModel for {name}\b"):
        for it in re.finditer(rf"^(?:pub(?:\(crate\))? )?{head}[^\n]*\{{\n.*?^\}}", text, re.M | re.S):
            lines = "\n".join(re.findall(r"^\s*(?:pub(?:\(crate\))? )?ghost .*?[};],?$", it[0], re.M))
            found |= cited_in(lines, *imports_of(text))
    return found


def closure(seeds):
    """The definitions that these rest on, each as (module, name), and with them the types of the code, each as (crate, name)."""
    seen, types, left = set(), set(), list(seeds)
    while left:
        where, name = left.pop()
        declared = re.match(r"Rattle\.(\w+)\.specs\.declared\.", where)
        if declared and (declared[1], name) not in types and os.path.isdir(f"{TOP}/crates/{declared[1]}"):
            types.add((declared[1], name))
            left.extend(ghosts(declared[1], name))
        module = modules().get(where)
        if module is None:
            continue
        if name not in module.items:
            if name in module.imports:
                left.append(module.imports[name])
            continue
        item = module.items[name]
        if (where, item.name) in seen:
            continue
        seen.add((where, item.name))
        for word in TOKEN.findall(item.text):
            for it in (word, word.lstrip("λ¬")):
                found = cited(module, it)
                if found:
                    left.append((found[0] or where, found[1]))
    return seen, types


def text_of(path):
    return re.sub(r"^\s*//.*", "", whole_text(path), flags=re.M)


def whole_text(path):
    with open(path, encoding="utf-8") as file:
        return file.read()


def imports_of(text):
    """What the contracts of a source file import: names, and short names of whole files."""
    names, aliases = {}, {}
    for module, listed, alias in GHOST_USE.findall(text):
        if alias:
            aliases[alias] = module
        else:
            names.update({here: (module, there) for here, there in named(listed).items()})
    return names, aliases


def cited_in(text, names, aliases):
    found = set()
    for word in TOKEN.findall(text):
        head, _, rest = word.partition(".")
        if head in aliases and rest:
            found.add((aliases[head], rest.split(".")[0]))
        elif head in names:
            found.add(names[head])
    return found


def traits(text, call, read=None):
    """The traits that the call is generic in, by its bounds: their texts, and what they cite."""
    texts, found = [], set()
    for name in sorted(set(re.findall(r"\b[A-Z]\w*: (\w+)", re.search(rf"fn {call}<(.*?)>\(", text, re.S)[1]))):
        for path in sorted(glob.glob(f"{TOP}/crates/*/src/**/*.rt", recursive=True)):
            whole = (read or text_of)(path)
            it = re.search(rf"^pub trait {name}\b.*?^\}}", whole, re.M | re.S)
            if it:
                texts.append(it[0])
                found |= cited_in(it[0], *imports_of(whole))
    return texts, found


def clauses(path, call):
    """Each clause of a call, and each premise: its text, and what it cites, with what the traits promise."""
    text = text_of(f"{TOP}/{path}")
    names, aliases = imports_of(text)
    contract = re.search(rf"pub fn {call}<.*?^\{{", text, re.M | re.S)[0]
    found = re.findall(r"(ensures|requires)\*?(?: (\w+))? (\{.*?\})(?=\s*(?://[^\n]*\s*)*(?:ensures|requires|\{$))", contract, re.S)
    if len(found) != len(re.findall(r"\b(?:ensures|requires)\b", contract)):
        sys.exit(f"{path}: a clause can't be read")
    texts, promised = traits(text, call)
    return {name or kind: ([body, *texts], cited_in(body, names, aliases) | promised) for kind, name, body in found}


def type_texts(types):
    """The enums and structs of these names, as the code has them."""
    for crate, name in sorted(types):
        found = re.search(rf"^pub (?:enum|struct) {name}\b.*?^\}}", source(crate), re.M | re.S)
        if found:
            yield crate, found[0]


def size(definitions):
    """How many definitions, lines, files and crates these are."""
    files = {where for where, _ in definitions}
    lines = sum(modules()[where].items[name].lines for where, name in definitions)
    return len(definitions), lines, len(files), len({it.split(".")[1] for it in files})


def digest(texts, definitions, types):
    """A digest of clauses, of definitions and of types, comments and spaces left out."""
    texts = sorted(texts) + sorted(modules()[where].items[name].text for where, name in definitions) + [it for _, it in type_texts(types)]
    return hashlib.sha256("\n".join(" ".join(it.split()) for it in texts).encode()).hexdigest()[:12]


def rows():
    """The table of the page: the numbers and the digest by clause."""
    found = {}
    with open(f"{TOP}/{PAGE}", encoding="utf-8") as file:
        for line in file:
            cells = [it.strip() for it in line.strip().strip("|").split("|")]
            if len(cells) == 6 and all(it.isdigit() for it in cells[1:5]):
                found[cells[0].strip("`")] = (*map(int, cells[1:5]), cells[5].strip("`"))
    return found


def check_table(behind):
    said = rows()
    for name, (texts, (definitions, types)) in behind.items():
        now = (*size(definitions), digest(texts, definitions, types))
        if said.get(name) != now:
            yield f"{PAGE}: the row of `{name}` is | {' | '.join(map(str, now))} |, and the page has {said.get(name)}"


def check_imports():
    """Definitions of proofs/ that a contract or a definition of specs/ names."""
    own = set(os.listdir(f"{TOP}/crates"))
    for path in sorted(glob.glob(f"{TOP}/crates/*/specs/**/*.antt", recursive=True) + glob.glob(f"{TOP}/crates/*/src/**/*.rt", recursive=True)):
        for crate in re.findall(r"^\s*(?:pub )?(?:ghost )?use Rattle\.(\w+)\.proofs\.", text_of(path), re.M):
            if crate in own:
                yield f"{os.path.relpath(path, TOP)}: it names a definition of {crate}'s proofs/"


def check_specs():
    """Definitions of specs/ that no contract rests on, and proofs among them."""
    seeds = set()
    for path in glob.glob(f"{TOP}/crates/*/src/**/*.rt", recursive=True):
        text = text_of(path)
        names, aliases = imports_of(text)
        seeds |= set(names.values()) | cited_in(text, {}, aliases)
    used, _ = closure(seeds)
    for where, module in modules().items():
        path = os.path.relpath(module.path, TOP)
        for item in dict.fromkeys(module.items.values()):
            if (where, item.name) not in used and where not in LAWS:
                yield f"{path}: no contract rests on {item.name}: it belongs in proofs/"
            if PROOF.search(item.text) and where not in LAWS:
                yield f"{path}: {item.name} has a proof in it"


def show(definitions):
    by_file = collections.defaultdict(list)
    for where, name in sorted(definitions):
        by_file[os.path.relpath(modules()[where].path, TOP)].append(name)
    for path, names in sorted(by_file.items()):
        print(f"{path}: {', '.join(names)}")


def paragraphs(path):
    """The paragraphs of a file, each with the name that it defines, if it defines one."""
    with open(path, encoding="utf-8") as file:
        for it in re.split(r"\n\s*\n", file.read().strip("\n")):
            lines = [line.strip() for line in it.split("\n")]
            first = next((line for line in lines if line and not line.startswith(("--", "use ", "pub use ", "module "))), "")
            yield it, ITEM.match(first)[1] if first else None


def write_out(path, call, name, definitions, types):
    """Prints a clause, or all of a call, then the traits that the call is generic in, the types of the code, and the definitions, lowest crates first."""
    for clause, (texts, _) in clauses(path, call).items():
        if name in (clause, call):
            print(f"==== {call}, {clause}\n\n{texts[0]}\n")
    for it in traits(whole_text(f"{TOP}/{path}"), call, whole_text)[0]:
        print(f"==== the trait of the code\n\n{it}\n")
    for crate, it in type_texts(types):
        print(f"==== {crate}, a type of the code\n\n{it}\n")
    order = [line.split(":")[0].split()[0] for line in whole_text(f"{TOP}/crates.txt").split("\n") if ":" in line and not line.startswith("#")]
    by_file = collections.defaultdict(set)
    for where, it in definitions:
        by_file[where].add(it)
    for where in sorted(by_file, key=lambda it: (order.index(it.split(".")[1]), it)):
        print(f"==== {os.path.relpath(modules()[where].path, TOP)}\n")
        given = {it: text for text, it in paragraphs(modules()[where].path)}
        for it, item in modules()[where].items.items():
            if it in by_file[where]:
                print(f"{given.get(it, item.text)}\n")


def check_quotes():
    """Records that a page quotes, line by line, without what only the language asks for: each has to be as it stands in specs/."""
    plain = lambda text: [" ".join(re.sub(r"\bpub |: Type 0 where|\bwhere$|\s--.*", "", it).split()) for it in text.split("\n") if not it.strip().startswith("--")]
    records = {item.name: plain(item.text) for module in modules().values() for item in module.items.values() if "record " in item.text.strip().split("\n")[0]}
    for page in ("README.md", PAGE):
        for quoted in re.findall(r"(?m)^    record .*\n(?:      .*\n)+", text_of(f"{TOP}/{page}")):
            lines = [it for it in plain(quoted) if it]
            name = lines[0].split()[1]
            if "".join(lines).replace(" ", "") != "".join(records.get(name, [])).replace(" ", ""):
                yield f"{page}: the record {name} is not quoted as it stands"


def asked(behind, calls):
    """Prints what stands behind the clause or call that the words name."""
    name = sys.argv[2]
    path, call = next((it for it in calls if name == it[1] or name in clauses(*it)), (None, None))
    if not call:
        sys.exit(f"check_trusted: no call has a clause {name}; with rows of their own are {', '.join(behind)}")
    definitions, types = behind[name][1] if name in behind else closure(clauses(path, call)[name][1])
    if sys.argv[1] == "--text":
        write_out(path, call, name, definitions, types)
    else:
        show(definitions)
        print(*size(definitions))
    return 0


def main():
    calls, behind = (RUN, *BOX), {}
    for path, call in calls:
        found = clauses(path, call)
        behind |= {name: (texts, closure(cited)) for name, (texts, cited) in found.items() if name in ROWS}
        behind[call] = list(dict.fromkeys(it for texts, _ in found.values() for it in texts)), closure(set().union(*(cited for _, cited in found.values())))
    if sys.argv[1:2] in (["--list"], ["--text"]) and len(sys.argv) == 3:
        return asked(behind, calls)
    if sys.argv[1:]:
        sys.exit(__doc__.split("\n")[2].strip())
    wrong = [*check_table(behind), *check_specs(), *check_imports(), *check_quotes()]
    print(*wrong, sep="\n", end="\n" * bool(wrong))
    return bool(wrong)


if __name__ == "__main__":
    sys.exit(main())
