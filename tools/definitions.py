"""For tools/believe: cuts files of specs and proofs, and sources, into definitions, and says what their names refer to; an unknown one ends the program."""
import functools
import pathlib
import re
import sys
from dataclasses import dataclass, field

LIBRARY, LANGUAGE = ("mathlib.", "lib.", "Prim.", "native."), {"Type", "Unit", "tt", "⊤", "⊥", "¬", "×"}
KEYWORDS = set("abbrev unfoldable pub data record module where → : = ; _ bool u8 u16 u32 u64 usize i64 as".split())
RUST_KINDS = {"struct": "record", "enum": "data", "type": "function", "const": "function"}
HEAD = re.compile(r"((?:abbrev |unfoldable |pub )*)(data |record |module )?(\S+)")
USE = re.compile(r"(?:ghost |pub )*use (\S+?)(?:\.\{(.*)\}| as ([^\s;]+));?")
MODULE = re.compile(r"Rattle\.(\w+)\.(specs|proofs)\.(declared\.)?(.+?)(?:\.TheVariants)?")
TYPE = re.compile(r"((?:^(?://|#\[)[^\n]*\n)*)^(?:pub )?(struct|enum|type|const) (\w+)(?:<[^>\n]*>)?(?:: [^=\n]+)? (?:\{\n|= )(.*?)(?:^\}|;$)", re.M | re.S)
GROUP = re.compile(r"(.*?)\{(.*)\}", re.S)


def fail(why):
    sys.exit(f"tools/believe: {why}")


def text_of(path):
    return pathlib.Path(path).read_text(encoding="utf-8") if pathlib.Path(path).is_file() else fail(f"there is no file {path}")


def tokens(lines):
    """The words and brackets, without quoted texts and the marks around a name of the code."""
    bare = re.sub(r'"[^"]*"|[«»]', lambda found: " " * (found.group()[0] == '"'), " ".join(lines))
    return re.sub(r"([(){};]|\.(?=\s|$))", r" \1 ", bare).split()


def mark(words):
    """The place of the first colon or equals sign outside of brackets."""
    depth = 0
    for i, word in enumerate(words):
        depth += (word in "({") - (word in ")}")
        if depth == 0 and word in (":", "="):
            return i
    return len(words)


def spellings(name):
    """The name, and the parts of one with places for arguments."""
    return {name, *filter(None, name.split("◌"))}


def whole_lines(lines):
    """The lines, with an import on several lines put together on its last one, and none in place of the others."""
    held = ""
    for line in lines:
        line, held = (held + " " + line.strip() if held else line), ""
        if re.match(r"\s*(?:ghost |pub )*use ", line) and line.count("{") > line.count("}"):
            held = line
        else:
            yield re.sub(r"\{\s+|,?\s+\}", lambda brace: brace.group().strip(" ,"), line) if "use " in line else line


def imported(tree, above=""):
    """The paths of a Rust import, each with the name that it gets."""
    group = GROUP.fullmatch(tree.strip())
    if not group:
        path, _, other = (above + tree.strip()).partition(" as ")
        return [(path, other or path.rpartition("::")[2])]
    inside = re.findall(r"(?:[^,{}]|\{(?:[^{}]|\{[^{}]*\})*\})+", group[2])
    return [pair for part in inside if part.strip() for pair in imported(part, above + group[1].strip())]


@dataclass(eq=False)
class Definition:
    """Its chunks are the signature, then each clause, constructor or field; `comments` counts the lines of comments, fixities and attributes."""
    source: "Source"
    name: str
    kind: str
    comments: int
    chunks: list
    indent: int = 0
    modules: tuple = ()
    section: str = ""

    def members(self):
        """The constructors or fields."""
        chunks = map(tokens, self.chunks[1:] if self.kind in ("data", "record") else [])
        return [word for words in chunks for word in words[:mark(words)] if word != "pub"]

    def takes(self, line, indent):
        """Whether a line goes on with the definition; if so, it is added."""
        inside = not self.chunks[0][-1].endswith("where") if self.kind == "module" else indent > self.indent
        if not line or not inside and line[0] not in ")}":
            return False
        if line.startswith("--"):
            self.comments += 1
        elif self.kind in ("data", "record") and indent == self.indent + 2:
            self.chunks.append([line])
        else:
            self.chunks[-1].append(line)
        return True


@dataclass(eq=False)
class Source:
    """A file: its definitions in order, what its names are, and what it imports, by name or as a whole module; `handed` are the names that it hands on."""
    path: str
    definitions: list = field(default_factory=list)
    names: dict = field(default_factory=dict)
    imports: dict = field(default_factory=dict)
    aliases: dict = field(default_factory=dict)
    handed: dict = field(default_factory=dict)

    def use(self, line):
        path, names, alias = (USE.fullmatch(line) or fail(f"{self.path}: not understood: {line}")).groups()
        self.aliases.update({alias: path} if alias else {})
        pairs = [name.partition(" as ")[::2] for name in re.split(r",\s*", names or "") if name]
        found = {spelling: (path, name) for name, other in pairs for spelling in spellings(other or name)}
        self.imports.update(found)
        self.handed.update(found if line.startswith("pub ") else {})

    def closed(self):
        """A name is that of a definition, or else of the types that have such a constructor."""
        for d in self.definitions:
            for name in d.members() if d.kind == "data" else []:
                self.names.setdefault(name, []).append(d)
        self.names.update((spelling, [d]) for d in self.definitions for spelling in spellings(d.name))
        return self


@functools.cache
def load(path):
    """The definitions of a file of specs or proofs. A comment in capitals is the heading of a section."""
    source, modules, current, above, section = Source(path), [], None, 0, "OTHERS"
    for line in whole_lines(text_of(path).splitlines()):
        indent, line = len(line) - len(line.lstrip()), line.strip()
        if current and current.takes(line, indent):
            continue
        modules = [module for module in modules if not line or module.indent < indent]
        if not line or line.startswith(("--", "infix")):
            section = line[3:] if line[:3] == "-- " and line == line.upper() else section
            above = above + 1 if line else 0
            continue
        (modifiers, kind, name), words = HEAD.match(line).groups(), tokens([line])
        if line.startswith(("use ", "pub use ")):
            source.use(line)
        elif modifiers or kind or words[mark(words):][:1] == [":"]:
            current = Definition(source, name, (kind or "function").strip(), above, [[line]], indent, tuple(modules), section)
            source.definitions.append(current)
            modules += [current] if kind == "module " else []
        else:
            current.chunks.append([line])
            current.comments += above
        above = 0
    return source.closed()


@functools.cache
def load_rust(path):
    """The structs, enums, type names and constants of a source file, each member as its name, a colon and its types."""
    source, text = Source(path), text_of(path)
    for line in whole_lines(text.splitlines()):
        if re.match(r"(?:pub )?ghost use ", line):
            source.use(line)
    source.imports.setdefault("Option", ("Rattle.std.specs.Prelude", "Option"))
    used = [pair for tree in re.findall(r"^(?:pub )?use ([^;]+);", text, re.M) for pair in imported(tree)]
    for path, name in used + [(path, path) for path in re.findall(r"\b\w+::[A-Z]\w*", text)]:
        *modules, last = path.split("::")
        if modules and last[:1].isupper() and pathlib.Path(f"crates/{modules[0]}").is_dir():
            source.imports.setdefault(name, (f"Rattle.{modules[0]}.specs.declared.{'.'.join([*modules[1:], last])}", last))
    for above, kind, name, body in TYPE.findall(text):
        lines = [line.strip() for line in body.splitlines()]
        members = [re.findall(r"(?<!')\b[A-Za-z_](?:\w|::)*", line.removeprefix("pub ")) for line in lines if not line.startswith("//")]
        inside = [["{", "}"], *([" ".join([*words[:1], ":", *words[1:]])] for words in members)]
        comments = above.count("\n") + len(lines) - len(members)
        source.definitions.append(Definition(source, name, RUST_KINDS[kind], comments, [[" ".join(members[0])]] if kind in ("type", "const") else inside))
    return source.closed()


def look(path, name):
    """What a name of a module is: definitions, or the library's name. A module `declared` is generated from the types of a source."""
    found = MODULE.fullmatch(path)
    if path.startswith(LIBRARY) or path.startswith("Rattle.") and not pathlib.Path("crates", path.split(".")[1]).is_dir():
        return [f"{path} {name}"]
    crate, folder, declared, rest = (found or fail(f"not a module: {path}")).groups()
    *modules, last = rest.split(".")
    file = f"src/{'/'.join(modules) or 'lib'}.rt" if declared else f"{folder}/{rest.replace('.', '/')}.antt"
    source = (load_rust if declared else load)(f"crates/{crate}/{file}")
    if not declared and name in source.handed:
        return look(*source.handed[name])
    return source.names.get(name if last == "TheConstants" or not declared else last) or fail(f"{source.path}: no definition of {name}")


def resolve(source, word):
    """What a word is that no binder binds, or nothing, with the fields that are read of it."""
    name, *fields = word.split(".")
    if name in source.aliases and fields:
        found, fields = look(source.aliases[name], fields[0]), fields[1:]
    elif name in source.imports and name not in source.names:
        path, type_name = source.imports[name]
        found = look(path, type_name)
        if fields and name[0].isupper() and all(isinstance(target, str) for target in found):
            # A constructor behind the name of its type, which is the library's.
            found, fields = look(path, fields[0]), fields[1:]
        elif fields and all(not isinstance(target, str) and target.kind == "data" and fields[0] in target.members() for target in found):
            # A constructor behind the name of its own type.
            fields = fields[1:]
    else:
        found = source.names.get(name) or [f"the language {name}" for _ in LANGUAGE & {name}]
    return found and [*found, *projections(fields)]


def projections(fields):
    """The fields with their dots, without the places of a pair."""
    return [f".{name}" for name in fields if not name.isdigit()]


def binders(words, signature):
    """The names that an opening bracket binds, which these words follow: those before a colon, or in a signature the one in {x}."""
    at = next((i for i, word in enumerate(words) if word in ("(", "{", ")", "}", ":", "=")), 0)
    return words[:at] if words[at] == ":" or signature and at == 1 and words[at] == "}" else []


def walk(words, scope, source, pattern=False, signature=False):
    """What the words refer to. A binder holds from its place to the end of the brackets around it; a variable of a pattern holds in its clause."""
    found, stack, lets, binding, skip = [], [], [], False, 0
    for i, word in enumerate(words):
        label = words[i + 1:i + 2] == ["="] and words[i - 1] in "{;"
        if i < skip or label or word in scope or word in KEYWORDS or word.isdigit():
            continue
        if word in "({":
            names = binders(words[i + 1:], signature)
            stack.append((scope, names, binding))
            scope, binding, skip = set(scope), False, i + 1 + len(names)
        elif word in ")}":
            inner, (scope, names, binding) = scope, stack.pop()
            scope.update(inner if pattern else names)
        elif word in "λ.":
            binding = word == "λ"
        elif word == "let":
            lets, skip = lets + [words[i + 1]], i + 2
        elif word == "in":
            scope.add(lets.pop())
        elif binding:
            scope.add(word)
        elif word.partition(".")[0] in {"", *scope}:
            found += projections(word.split(".")[1:])
        else:
            targets = resolve(source, word)
            if pattern and "." not in word and not any(isinstance(target, str) or target.kind == "data" for target in targets):
                scope.add(word)
            else:
                found += targets or fail(f"{source.path}: cannot resolve {word} in: {' '.join(words)}")
    return found
