#!/usr/bin/env python3
# SPDX-License-Identifier: Apache-2.0
"""Holds the reading list of docs/PROVED.md to the public contracts.

From each public contract every name is followed through the definitions (specs/*.antt) and the declared types
(src/*.rt) until only libraries of the toolchain are left. It fails, a line for each reason, where
  - a name that is reached is not in the list, or a listed one is not reached;
  - a public function has a `requires`, or no `ensures`;
  - a row of the table from demands to names, or docs/FORMAT.md, has a name that is not in the file it gives;
  - a word is met whose meaning it does not know.

    python3 docs/definitions.py            the check
    python3 docs/definitions.py --write    prints the list
    python3 docs/definitions.py --from N   prints where the name N is used

Run it from the top of the repository.
"""
import re
import sys
import textwrap
from pathlib import Path

CRATES = Path("crates")
LIST, FORMAT = Path("docs/PROVED.md"), Path("docs/FORMAT.md")
BEGIN, END = "<!-- definitions.py: list -->", "<!-- definitions.py: end -->"

# The toolchain's libraries: names that come from them are not followed.
LIBRARIES = ("Rattle.std.", "Rattle.core.", "lib.", "mathlib.", "Prim.", "borrow.", "native.", "denote.")
LIBRARY_CRATES = {"std", "core"}
# What antt and the contracts have of their own.
WORDS = set("→ = : × ⊥ ¬ . _ λ let in record Type Unit tt absurd ( ) { } , ;".split())
# Fields that are no record's: the parts of a pair, and what is lent as it is, and before and after a call.
FIELDS, LENT = {"0", "1"}, {"now", "old", "new"}
MACHINE = set("u8 u16 u32 u64 usize i8 i16 i32 i64 isize bool mut str self Option Result".split())
NUMBER = re.compile(r"0x[0-9a-fA-F]+|[0-9][0-9_]*")

faults = []


def fault(where, what):
    if f"{where}: {what}" not in faults:
        faults.append(f"{where}: {what}")


# ---- text

def without_comments(text, mark):
    """The text with its comments taken out; strings stay, and so does the number of lines."""
    return re.sub(r'"(?:\\.|[^"\\])*"|' + r"'(?:\\.|[^'\\])'|" + mark + r"[^\n]*",
                  lambda m: "" if m[0].startswith(mark) else m[0], text)


def tokens(text):
    """Words, strings and brackets; a name that stands in guillemets is the name. A word has its fields: `p.section`."""
    return re.findall(r'"(?:\\.|[^"\\])*"|[(){},;]|[^\s(){},;"]+', text.replace("«", "").replace("»", ""))


def blocks(text):
    """The lines of a text that are indented least, each with what is indented more below it and a closing bracket."""
    lines = [line for line in text.split("\n") if line.strip()]
    least = min((len(line) - len(line.lstrip()) for line in lines), default=0)
    found = []
    for line in lines:
        if line[least] not in " }":
            found.append(line)
        else:
            found[-1] += "\n" + line
    return found


def closing(text, start):
    """The place after the bracket that closes the one at `start`."""
    pairs, depth = {"(": ")", "{": "}", "[": "]"}, 0
    for at in range(start, len(text)):
        depth += (text[at] == pairs[text[start]]) * -1 + (text[at] == text[start])
        if depth == 0:
            return at + 1
    raise ValueError("a bracket is not closed")


# ---- terms

def binder(words, at):
    """The names before a colon, where a bracket that was opened before `at` declares some: (x y : A)."""
    names = []
    while at < len(words) and words[at] not in ("(", ")", "{", "}", ",", ";", "="):
        if words[at] == ":":
            return names
        names.append(words[at])
        at += 1
    return []


def free(words, bound):
    """The words of a term that are not bound in it. A name is bound up to the end of the bracket that it stands in."""
    scopes, in_record, lambdas, used = [set(bound)], [False], [], []
    for at, word in enumerate(words):
        before = words[at - 1] if at else ""
        if word in "({":
            scopes[-1].update(binder(words, at + 1))
            scopes.append(set(scopes[-1]))
            in_record.append(before == "record")
        elif word in ")}":
            scopes.pop()
            in_record.pop()
        elif word == "λ":
            lambdas.append(len(scopes))
        elif lambdas and lambdas[-1] == len(scopes):
            scopes[-1].add(word.rstrip("."))
            if word.endswith("."):
                lambdas.pop()
        elif before == "let":
            scopes[-1].add(word)
        elif in_record[-1] and before in "{;" and words[at + 1:at + 2] == ["="]:
            pass
        else:
            head, dot, fields = word.partition(".")
            if head not in scopes[-1]:
                used.append(word)
            elif dot:
                used.append("." + fields)
    return used


def without_lent(word, names):
    """A word of a clause without the .now, .old or .new right behind one of these names."""
    head, _, fields = word.partition(".")
    first, _, others = fields.partition(".")
    return f"{head}.{others}".rstrip(".") if head in names and first in LENT else word


# ---- definitions in antt

class Definition:
    def __init__(self):
        self.types = []      # tokens of signatures, parameters, fields and constructors
        self.clauses = []    # (tokens of the patterns, tokens of the right side, definitions that are local to it)
        self.bound = set()   # names that its parameters and fields bind


class Specs:
    """A file of definitions: what it imports, its definitions, and the definition that each name of it belongs to."""

    def __init__(self, path, text=None, outer=None):
        self.path = path
        self.imports, self.modules = (outer.imports, outer.modules) if outer else ({}, {})
        self.definitions, self.owner, self.constructors, self.fields = {}, {}, set(), {}
        self.read(without_comments(path.read_text(), "--") if text is None else text, [], set())

    def read(self, text, types, bound):
        for block in blocks(text):
            words = tokens(block)
            if words[0] == "use":
                add_use(self, block[4:])
            elif words[:2] == ["module", "_"]:
                head, body = self.where(block)
                self.read(body, types + [tokens(head)[2:]], bound | declared_in(tokens(head)[2:]))
            elif words[0] == "unfolding":
                continue
            else:
                self.define(block, types, bound)

    def where(self, block):
        parts = re.split(r"\swhere\s*\n", block, maxsplit=1)
        return (parts[0], parts[1]) if len(parts) == 2 else (re.sub(r"\swhere\s*$", "", block), "")

    def define(self, block, types, bound):
        words = tokens(block)
        while words[0] in ("abbrev", "unfoldable", "pub"):
            words = words[1:]
        if words[0] in ("record", "data"):
            self.define_type(words[0], block, types, bound)
        elif words[0] in self.definitions:
            self.clause(words[0], block)
        elif words[1:2] == [":"] or words[1:5:3] == ["{", ":"]:
            made = self.make(words[0], types, bound)
            made.types.append(words[1:] if words[1] == ":" else words[4:])
            made.bound |= set(words[2:3]) if words[1] == "{" else set()
        else:
            fault(self.path, f"not understood: {block.strip().splitlines()[0]}")

    def make(self, name, types, bound):
        made = self.definitions[name] = Definition()
        made.types, made.bound = list(types), set(bound)
        self.owner[name] = name
        return made

    def define_type(self, kind, block, types, bound):
        head, body = self.where(block)
        words = tokens(head)
        words = words[words.index(kind) + 1:]
        made = self.make(words[0], types, bound)
        made.types.append(words[1:])
        made.bound |= declared_in(words[1:])
        for line in blocks(body):
            parts = tokens(line)
            parts = parts[1:] if parts[0] == "pub" else parts
            if parts[1] != ":":
                fault(self.path, f"not understood: {line.strip()}")
            made.types.append(parts[2:])
            if kind == "record":
                made.bound.add(parts[0])
                self.fields.setdefault(words[0], set()).add(parts[0])
            else:
                self.owner[parts[0]] = words[0]
                self.constructors.add(parts[0])

    def clause(self, name, block):
        head, body = self.where(block)
        words = tokens(head)
        if "=" not in words:
            fault(self.path, f"not understood: {head.strip().splitlines()[0]}")
            return
        middle = words.index("=")
        local = Specs(self.path, body, self) if body else None
        self.definitions[name].clauses.append((words[1:middle], words[middle + 1:], local))


def declared_in(words):
    """All names that the brackets of a head declare."""
    return {name for at, word in enumerate(words) if word in "({" for name in binder(words, at + 1)}


def add_use(file, text):
    """Adds what a `use` names, each with the name that it has here, to a file's imports and modules."""
    text = " ".join(text.split())
    listed = re.fullmatch(r"(\S+)\.\{(.*)\}", text)
    whole = re.fullmatch(r"(\S+) as (\S+)", text)
    if whole and not listed:
        file.modules[whole[2]] = whole[1]
    elif not listed:
        fault(file.path, f"not understood: use {text}")
    for part in filter(None, map(str.strip, listed[2].split(",") if listed else [])):
        name, _, other = part.partition(" as ")
        shown = other or name
        file.imports[shown] = (listed[1], name)
        # An operator such as ◌++◌ stands between its operands.
        if re.fullmatch(r"◌[^◌]+◌", shown):
            file.imports[shown[1:-1]] = (listed[1], name)


# ---- types and contracts in Rattle

def use_paths(text):
    """The paths that a `use` of code names, each as its parts; `a::{self, b}` are a and a::b."""
    group = re.fullmatch(r"(.*)::\{(.*)\}", text, re.DOTALL)
    names = [name.strip() for name in group[2].split(",") if name.strip()] if group else [text]
    paths = [(group[1] if name == "self" else f"{group[1]}::{name}") if group else name for name in names]
    if not all(re.fullmatch(r"\w+(::\w+)*", path) for path in paths):
        raise ValueError(f"not understood: use {text}")
    return [path.split("::") for path in paths]


class Source:
    """A file of code: what it imports, its types and constants, and its functions with their contracts."""

    def __init__(self, crate, path):
        self.crate, self.path = crate, path
        self.text = without_comments(path.read_text(), "//")
        self.uses, self.handed_on = {}, []
        for handed_on, item in re.findall(r"(?m)^\s*(pub )?use ([^;]*);", self.text):
            for parts in use_paths(item):
                self.uses[parts[-1]] = parts
                self.handed_on += [parts] if handed_on else []
        self.imports, self.modules = {}, {}
        for item in re.findall(r"(?ms)^ghost use (.*?);", self.text):
            add_use(self, item)
        self.types = {}
        for kind, name in re.findall(r"(?m)^pub (struct|enum|const) (\w+)", self.text):
            self.types[name] = self.body(kind, name)
        self.functions = {name: (bool(exported), at) for name, exported, at in self.find_functions()}
        self.methods, self.conversions = {}, {}
        for found in re.finditer(r"(?m)^impl (?:(\w+<\w+>) for )?(\w+) \{", self.text):
            self.read_impl(found[1], found[2], found.end() - 1)

    def read_impl(self, trait, name, start):
        """An impl: the public methods of a type, or what its conversions give, with the type that they are of."""
        end = closing(self.text, start)
        if not trait:
            for found in re.finditer(r"(?m)^    pub fn (\w+)", self.text[start:end]):
                self.functions[f"{name}::{found[1]}"] = False, start + found.end()
                self.methods.setdefault(name, []).append(f"{name}::{found[1]}")
            return
        for found in re.finditer(r"(?m)^    ghost \w+ = (?=\{)", self.text[start:end]):
            at = start + found.end()
            for of in type_words(f"{trait} {name}"):
                self.conversions.setdefault(of, []).append(self.text[at + 1:closing(self.text, at) - 1])

    def body(self, kind, name):
        start = re.search(rf"(?m)^pub {kind} {name}\b", self.text).end()
        if kind == "const":
            return kind, self.text[start:self.text.index("=", start)]
        if self.text[start] == "(":
            return kind, self.text[start + 1:closing(self.text, start) - 1].replace("pub ", "")
        brace = self.text.index("{", start)
        return kind, self.text[brace:closing(self.text, brace)]

    def find_functions(self):
        for found in re.finditer(r'(?m)^(?:pub )?(extern "C" )?fn (\w+)', self.text):
            yield found[2], found[1], found.end()

    def contract(self, name):
        """The types of the signature, the names of the parameters, and the clauses, each with its kind."""
        opened = re.compile(r"(?:<([^<>()]*)>)?\(").match(self.text, self.functions[name][1])
        if not opened:
            raise ValueError(f"not understood: the signature of {name}")
        start, end = opened.end() - 1, closing(self.text, opened.end() - 1)
        clauses = []
        clause = re.compile(r"\s*(requires|ensures)\b\s*\w*\s*(?=\{)")
        following = re.compile(r"\s*(?:->\s*([^{]*?))?(?=\s*(?:\brequires\b|\bensures\b|\{))").match(self.text, end)
        if not following:
            raise ValueError(f"not understood: what stands behind the parameters of {name}")
        signature = " ".join((opened[1] or "", self.text[start:end], following[1] or ""))
        place = following.end()
        while found := clause.match(self.text, place):
            place = closing(self.text, found.end())
            clauses.append((found[1], self.text[found.end() + 1:place - 1]))
        if not re.compile(r"\s*\{").match(self.text, place):
            raise ValueError(f"not understood: what stands between the clauses and the body of {name}")
        own = re.findall(r"(\w+)\s*(?::[^,]*)?", opened[1] or "")
        types = [word for word in type_words(signature) if word not in own]
        return types, re.findall(r"(\w+)\s*:(?!:)", self.text[start:end]), clauses


def type_words(text):
    """The types in a signature, or in a type's body, without the names before their colons."""
    return re.findall(r"[A-Za-z]\w*(?:::\w+)*", re.sub(r"(pub )?\w+\s*:(?!:)", " ", text))


# ---- following names

class Follower:
    def __init__(self):
        self.specs, self.sources = {}, {}
        self.reached, self.users, self.projections = set(), {}, set()
        self.waiting = []

    def spec(self, crate, name):
        path = CRATES / crate / "specs" / f"{name}.antt"
        if path not in self.specs:
            self.specs[path] = Specs(path)
        return self.specs[path]

    def source(self, crate, module):
        folder = CRATES / crate / "src"
        names = [f"{module}.rt"] if module else ["lib.rt", "main.rt"]
        path = next((folder / name for name in names if (folder / name).exists()), None)
        if path is None:
            raise ValueError(f"no module {module} in {crate}")
        if path not in self.sources:
            self.sources[path] = Source(crate, path)
        return self.sources[path]

    def reach(self, file, name, user):
        self.users.setdefault((file.path, name), set()).add(user)
        if (file.path, name) not in self.reached:
            self.reached.add((file.path, name))
            self.waiting.append((file, name))

    def item(self, source, parts):
        """The file that declares what a path of Rattle names, and its name there."""
        crate, rest = (source.crate, parts[1:]) if parts[0] == "crate" else (parts[0], parts[1:])
        if not (CRATES / crate).exists():
            crate, rest = source.crate, parts
        file = self.source(crate, rest[0] if len(rest) > 1 else None)
        name = rest[-1]
        if name in file.types or name in file.functions:
            return file, name
        if name in file.uses:
            return self.item(file, file.uses[name])
        raise ValueError(f"no {'::'.join(parts)}")

    def target(self, path, name):
        """The file and the owner of a name of a module, and whether it is a constructor; None for a library's."""
        inner = re.fullmatch(r"Rattle\.(\w+)\.specs\.(.*)", path)
        if not inner or not (CRATES / inner[1]).exists():
            if path.startswith(LIBRARIES):
                return None
            raise ValueError(f"not understood: {path}")
        crate, module = inner[1], inner[2].split(".")
        if module[0] != "declared":
            file = self.spec(crate, module[0])
            if name not in file.owner or len(module) > 1:
                raise ValueError(f"no {name} in {path}")
            return file, file.owner[name], name in file.constructors
        variants = module[-1] == "TheVariants"
        module = module[1:-1] if variants else module[1:]
        file, kind = self.item(self.source(crate, None), ["crate"] + module)
        if variants and not re.search(rf"\b{name}\b", file.types[kind][1]):
            raise ValueError(f"no {name} in {path}")
        return file, kind, variants

    def resolve(self, file, word):
        """What a word means in a file: 'word' for what the language has, None for a library's, or a target."""
        if word in WORDS or NUMBER.fullmatch(word) or word.startswith('"'):
            return "word"
        head, *fields = word.split(".")
        if head in file.modules and fields:
            found, fields = self.target(file.modules[head], fields[0]), fields[1:]
        elif head in file.imports:
            found = self.target(*file.imports[head])
        elif isinstance(file, Specs) and head in file.owner:
            found = file, file.owner[head], head in file.constructors
        elif isinstance(file, Source) and head in file.uses:
            found = *self.item(file, file.uses[head]), False
        elif not head and all(fields):
            found = "word"
        else:
            raise ValueError(f"the word {word} is not understood")
        self.projections |= {(file.path, field) for field in fields}
        return found

    def mention(self, file, words, user):
        for word in words:
            try:
                target = self.resolve(file, word)
            except ValueError as problem:
                fault(user, problem)
                continue
            if target not in ("word", None):
                self.reach(target[0], target[1], user)

    def pattern(self, file, words, user):
        """Mentions the constructors of a pattern, and gives the names that it binds."""
        bound = set()
        for word in words:
            try:
                target = self.resolve(file, word)
            except ValueError as problem:
                target = (None, None, False)
                if "." in word or word in file.imports:
                    fault(user, problem)
            if target in ("word", None):
                continue
            if target[2]:
                self.reach(target[0], target[1], user)
            else:
                bound.add(word)
        return bound

    def follow_definition(self, file, made, user, outer=frozenset()):
        for words in made.types:
            self.mention(file, free(words, made.bound | outer), user)
        for patterns, right, local in made.clauses:
            bound = self.pattern(file, patterns, user) | made.bound | outer
            if local:
                bound |= set(local.definitions)
                for inner in local.definitions.values():
                    self.follow_definition(file, inner, user, bound)
            self.mention(file, free(right, bound), user)

    def follow_type(self, file, name, user):
        kind, text = file.types[name]
        if kind == "enum":
            if "{" in text[1:]:
                fault(user, "a variant with fields is not understood")
            text = " ".join(re.findall(r"\(([^()]*)\)", text))
        for word in type_words(text):
            self.mention_type(file, word, user)
        for method in file.methods.get(name, []):
            self.reach(file, method, user)
        for given in file.conversions.get(name, []):
            self.mention(file, free(tokens(given), set()), user)

    def mention_type(self, file, word, user):
        if word in MACHINE:
            return
        first, *rest = word.split("::")
        parts = file.uses.get(first, [first]) + rest
        if parts[0] in LIBRARY_CRATES:
            return
        try:
            target, name = (file, word) if word in file.types else self.item(file, parts)
        except ValueError:
            fault(user, f"the type {word} is not understood")
            return
        self.reach(target, name, user)

    def follow_contract(self, file, name):
        user = f"{file.path}: {name}"
        types, parameters, clauses = file.contract(name)
        for word in types:
            self.mention_type(file, word, user)
        if not any(kind == "ensures" for kind, _ in clauses):
            fault(user, "has no ensures")
        for kind, text in clauses:
            if kind == "requires":
                fault(user, "has a requires")
            names = set(parameters) | {"self"} | ({"result"} if kind == "ensures" else set())
            words = [without_lent(word, names) for word in tokens(text)]
            self.mention(file, free(words, names), user)

    def follow(self):
        while self.waiting:
            file, name = self.waiting.pop()
            if isinstance(file, Specs):
                self.follow_definition(file, file.definitions[name], f"{file.path}: {name}")
            elif name in file.functions:
                self.follow_contract(file, name)
            else:
                self.follow_type(file, name, f"{file.path}: {name}")

    def check_fields(self):
        """Each field that is asked for belongs to a type that is reached: nothing is reached by a field alone."""
        known = set(FIELDS)
        for file in self.specs.values():
            for record, fields in file.fields.items():
                known |= fields if (file.path, record) in self.reached else set()
        for file in self.sources.values():
            for name, (kind, text) in file.types.items():
                if (file.path, name) in self.reached:
                    known |= set(re.findall(r"(\w+)\s*:(?!:)", text))
        for path, field in self.projections:
            if field not in known:
                fault(path, f"the field {field} is of no type that is reached")


def check_exported():
    """Functions are exported by cbf_capi alone, in the form that is looked for, and cbf has nothing but `pub use`."""
    for path in sorted(CRATES.glob("*/src/*.rt")):
        text = without_comments(path.read_text(), "//")
        form = r'(?m)^#\[unsafe\(no_mangle\)\]\npub extern "C" fn '
        plain = len(re.findall(form, text)) if path.parts[1] == "cbf_capi" else 0
        if (text.count("no_mangle"), text.count('extern "C"')) != (plain, plain):
            fault(path, "a function is exported where or how it is not understood")
        text = text.replace("#![tactic(auto)]\n", "", 1)
        if path.parts[1] == "cbf" and re.sub(r"(?m)^pub use [\w:]+(?:::\{[\w\s,]+\})?;$", "", text).strip():
            fault(path, "has something other than `pub use` of names")


def public(follower):
    """The public functions: what cbf hands on, the two orders, the functions for C, and what the program promises."""
    handed = follower.source("cbf", None)
    for parts in handed.handed_on:
        follower.reach(*follower.item(handed, parts), f"{handed.path}: pub use")
    for crate in ("cbf_orders", "cbf_capi", "cbf_list"):
        for path in sorted((CRATES / crate / "src").glob("*.rt")):
            file = follower.source(crate, None if path.stem in ("lib", "main") else path.stem)
            for name, (exported, _) in file.functions.items():
                wanted = {"cbf_orders": True, "cbf_capi": exported, "cbf_list": file.contract(name)[2]}
                if wanted[crate]:
                    follower.reach(file, name, f"{path}: public")


# ---- the list

def grouped(names):
    """File by file, in the order of crates.txt and the files' own."""
    order = [line.split(":")[0].split()[0] for line in Path("crates.txt").read_text().splitlines() if line.strip()]
    files = {}
    for path, name in names:
        files.setdefault(path, set()).add(name)
    return sorted(files.items(), key=lambda item: (order.index(item[0].parts[1]), item[0].parts[2], item[0].name))


def written(reached):
    """The list as it stands in the document: the files of code, then those of definitions."""
    texts = []
    for head, suffix in (("Contracts and declared types:", ".rt"), ("Definitions:", ".antt")):
        texts.append(head + "\n")
        for path, names in grouped(reached):
            if path.suffix == suffix:
                line = f"- `{path}`: " + ", ".join(f"`{name}`" for name in sorted(names, key=lambda n: (n.lower(), n)))
                texts.append(textwrap.fill(line, 110, subsequent_indent="  ", break_on_hyphens=False))
        texts.append("")
    return "\n".join(texts)


def listed():
    text = LIST.read_text()
    if text.count(BEGIN) != 1 or text.count(END) != 1:
        fault(LIST, f"the list does not stand once between {BEGIN} and {END}")
        return set()
    names = set()
    for entry in re.findall(r"(?m)^- `([^`]+)`:((?:.|\n(?=  ))*)$", text.split(BEGIN)[1].split(END)[0]):
        names |= {(Path(entry[0]), name) for name in re.findall(r"`([^`]+)`", entry[1])}
    return names


def compare(reached):
    there = listed()
    for path, names in grouped(reached - there):
        whole = "" if any(other == path for other, _ in there) else ", a file that it does not list"
        fault(LIST, f"does not list {', '.join(sorted(names))} of {path}{whole}")
    for path, name in sorted(there - reached):
        fault(LIST, f"lists {name} of {path}, which no public contract reaches")


def check_table():
    for row in re.findall(r"(?m)^\| (.*`crates/.*) \|$", LIST.read_text()):
        demand, files, names = row.rsplit(" | ", 2)
        text = "\n".join(Path(path).read_text() for path in re.findall(r"`([^`]+)`", files) if Path(path).exists())
        for name in re.findall(r"`([^`]+)`", names):
            if not re.search(rf"(?<![\w-]){re.escape(name)}(?![\w-])", text):
                fault(LIST, f"the row '{demand}': no {name} in {files}")


def check_format():
    """The names in brackets in docs/FORMAT.md: `File: name`, and further names of that file."""
    text = FORMAT.read_text()
    for part in re.findall(r"\(([^()]*`(?:pixels/)?[A-Z]\w+: [^()]*)\)", text):
        path = None
        for pixels, file, name in re.findall(r"`(?:(pixels/)?([A-Z]\w+): )?([^`]+)`", part):
            if file:
                path = CRATES / ("cbf_pixels" if pixels else "cbf_format") / "specs" / f"{file}.antt"
            if path and (not path.exists() or name not in Specs(path).owner):
                fault(FORMAT, f"no {name} in {path}")


def main(arguments):
    follower = Follower()
    try:
        check_exported()
        public(follower)
        follower.follow()
        follower.check_fields()
    except (ValueError, IndexError, OSError) as problem:
        fault("definitions.py", f"stopped: {problem}")
    if arguments[:1] == ["--write"]:
        print(written(follower.reached))
    elif arguments[:1] == ["--from"]:
        for (path, name), users in sorted(follower.users.items()):
            if name in arguments[1:]:
                print(f"{path}: {name} is used by", *sorted(users), sep="\n    ")
    else:
        compare(follower.reached)
        check_table()
        check_format()
    for line in faults:
        print(line, file=sys.stderr)
    if not arguments and not faults:
        files = {path for path, _ in follower.reached}
        contracts = sum(name in follower.sources[path].functions for path, name in follower.reached
                        if path in follower.sources)
        print(f"{contracts} public contracts reach {len(follower.reached) - contracts} names in {len(files)} files, "
              f"and {LIST} lists them all")
    return 1 if faults else 0


if __name__ == "__main__":
    sys.exit(main(sys.argv[1:]))
