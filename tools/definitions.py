"""The definitions of the crates (specs/*.antt), the types of the code that they name, and which of them a clause reaches.

The walk: each name of a clause is looked up in its file (`ghost use`, with `as`, and modules under a name), then in turn each name of
the definition that it stands for, in the file of that one (`use`, `pub use`). A name that is bound where it stands, by a binder, a
pattern, `λ`, `let` or a field, is none of these. Definitions of the kit are leaves. A definition's lines are those from its signature
up to the next item, without blank ones and comments; a `data` or a `record` counts whole, and of a `mutual` block its items. Of a type
that the code declares the lines in src count, of one with a model the type of this, of a trait what it tells of a value."""
import functools
import os
import re

ROOT = os.path.dirname(os.path.dirname(os.path.abspath(__file__)))
CRATES = f"{ROOT}/crates"

# What is left shut, with the reason: its own lines count, and what its body names is not reached through it.
SHUT = {
    # Which text the translator writes is its own choice. `units` says what the text spells and `linked` what that does, of whatever
    # text it is; a reader needs to know only that it is a function of the module and the name.
    ("w2c_sim", "Translation", "text_of"): "the translator's own text",
}

WORD = r"[^\s(){}.;,@\"«»]+"
PART = rf"(?:«[^»]*»|{WORD})"
TOKEN = re.compile(rf"\"(?:\\.|[^\"\\])*\"|{PART}(?:\.{PART})*|[(){{}};,@.]")
SIGNS = set("(){};,@.")
# What is no name, though it looks like one: reserved words, signs, and what the kernel has.
NO_NAMES = set("→ × ↦ = | : [ ] λ ∀ _ ∷ ≡ let in elim as data record deriving module where use mod pub open abbrev unfold unfolding "
               "unfoldable mutual Type do if then else".split())
LEAF = object()
# The folders of what the kit makes of the code of a crate.
MADE = "declared", "contracts"


class Fault(Exception):
    pass


def is_own(crate):
    return os.path.isdir(f"{CRATES}/{crate}")


def place(path):
    return os.path.relpath(path, ROOT)


def column(line):
    return len(line) - len(line.lstrip())


# ---- texts

def without_comments(text):
    """The lines of a .antt file, those of comments blank."""
    text = re.sub(r"\{-.*?-\}", lambda it: "\n" * it.group().count("\n"), text, flags=re.S)
    return [re.sub(r"(^|[\s(){},;])--.*$", r"\1", it).rstrip() for it in text.split("\n")]


def tokens_of(text):
    return TOKEN.findall(text)


def is_name(token):
    return token not in NO_NAMES and token not in SIGNS and token[0] not in "\"«" and not token[0].isdigit()


def pairs(braces):
    """What the braces of a `use` line take: each name with what it is called here."""
    for it in braces.split(","):
        words = it.split()
        if words:
            yield words[0], words[-1]


# Texts and characters in quotation marks, and brackets.
BRACKET = re.compile(r"\"(?:\\.|[^\"\\])*\"|'(?:\\.|[^'\\])'|[(){}]")


def closing(text, at):
    """The place behind the bracket that closes the one at a place."""
    depth = 0
    for it in BRACKET.finditer(text, at):
        depth += {"{": 1, "(": 1, "}": -1, ")": -1}.get(it.group(), 0)
        if depth == 0:
            return it.end()
    raise Fault("a bracket is not closed")


# ---- names and what they stand for

class Names:
    """What `use` lines bring: names, modules under a name, and what is passed on."""

    def __init__(self):
        self.taken, self.modules, self.passed_on = {}, {}, {}

    def take(self, line):
        found = re.match(r"(?:unfoldable )?(pub )?(?:ghost )?use\s+(.*?);?$", line, re.S)
        rest = found.group(2).strip()
        braces = re.match(r"(.*)\.\{(.*)\}$", rest, re.S)
        if not braces:
            path, *name = re.split(r"\s+as\s+", rest)
            self.modules[name[0] if name else path.split(".")[-1]] = path
            return
        for name, here in pairs(braces.group(2)):
            self.taken[here] = braces.group(1).strip(), name
            if found.group(1):
                self.passed_on[here] = self.taken[here]

    def find(self, name):
        """What a name stands for here; an operator stands by its sign."""
        for it in (name, f"◌{name}◌", f"{name}◌", f"◌{name}"):
            if it in self.taken:
                return look(*self.taken[it])
        return None

    def behind(self, module, name):
        """What `module.name` stands for, if such a module stands under this name."""
        return look(self.modules[module], name, must=False) if module in self.modules else None


@functools.cache
def look(path, name, must=True):
    words = path.split(".")
    crate, *rest = words[1:] if words[0] == "Rattle" else words
    if not is_own(crate):
        return LEAF
    if rest[0] != "specs" or len(rest) < 2:
        raise Fault(f"{path}: neither a definition nor a type")
    if rest[1] in MADE:
        return made(crate, rest[2:], name)
    found = home(crate, ".".join(rest[1:])).of(name)
    if found is None and must:
        raise Fault(f"{path} has no {name}")
    return found


def made(crate, path, name):
    if path[-1] == "TheConstants":
        return constant(crate, "/".join(path[:-1]), name)
    if path[-1].startswith("The"):
        path = path[:-1]
    return type_of(crate, "/".join(path[:-1]), path[-1])


# ---- definitions

class Definition:
    """An item of a .antt file: its kind and its name, and its lines without comments."""

    def __init__(self, file, name, kind, number):
        self.file, self.name, self.kind, self.number = file, name, kind, number
        self.text = []

    key = property(lambda self: (self.file.crate, self.file.module, self.name))
    path = property(lambda self: self.file.path)
    lines = property(lambda self: sum(1 for it in self.text if it))

    def heads(self):
        """The names of a data type's constructors, or of a record's fields."""
        inner = column(self.text[0]) + 2
        for line in self.text[1:]:
            found = re.match(rf"\s+(?:pub )?((?:{WORD} +)*{WORD}) +:( |$)", line)
            if found and column(line) == inner:
                yield from found.group(1).split()

    def pieces(self):
        """What binds names apart from the rest: the signature and each clause; a `data` or a `record` as a whole."""
        if self.kind != "definition":
            return ["\n".join(self.text)]
        found, outer = [], column(self.text[0])
        for line in self.text:
            if not found or line and column(line) == outer and line.strip()[0] not in ")]}":
                found.append([])
            found[-1].append(line)
        return ["\n".join(it) for it in found]

    @functools.cached_property
    def needs(self):
        """What its text names."""
        found = []
        for number, piece in enumerate(self.pieces()):
            tokens = tokens_of(piece)
            bound = bound_in(tokens, self.file.find)
            if self.kind == "record":
                bound |= set(self.heads())
            elif self.kind == "definition" and number:
                bound |= set(patterns(tokens[:end_of_left_side(tokens)], self.file.find))
            found += named(tokens, bound - {self.name}, self.file)
        return found


class Home(Names):
    """A .antt file: what it takes from others, and its definitions."""

    def __init__(self, crate, module):
        super().__init__()
        self.crate, self.module = crate, module
        self.path = f"{CRATES}/{crate}/specs/{module.replace('.', '/')}.antt"
        if not os.path.isfile(self.path):
            raise Fault(f"there is no {place(self.path)}")
        self.definitions, self.own = [], {}
        with open(self.path, encoding="utf-8") as file:
            self.read(without_comments(file.read()))
        for it in self.definitions:
            if it.kind == "data":
                for name in it.heads():
                    self.own.setdefault(name, it)

    def read(self, lines):
        current, outer, use = None, 0, ""
        for number, line in enumerate(lines, 1):
            bare = line.strip()
            if use or re.match(r"(unfoldable )?(pub )?use ", line):
                use = f"{use} {bare}".strip()
                if use.count("{") == use.count("}"):
                    self.take(use)
                    use = ""
                current = None
                continue
            if bare and column(line) == 0:
                outer = 0
            # The items of a block stand further in.
            if re.fullmatch(r"((abbrev|unfoldable) )?mutual|module _ .* where", bare):
                current, outer = None, 2
            elif re.match(r"infix[lr]? |(pub )?mod ", bare):
                current = None
            else:
                head = bare and column(line) == outer and self.head(bare, number)
                if head:
                    current = Definition(self, *head, number)
                    self.definitions.append(current)
                    self.own[current.name] = self.own[current.name.replace("◌", "")] = current
                if current:
                    current.text.append(line)
                elif bare:
                    raise Fault(f"{place(self.path)}:{number}: no item")

    def head(self, bare, number):
        """The name and the kind of the item that begins here, None where one goes on."""
        found = re.match(rf"(?:pub )?(data|record) ({WORD})", bare)
        if found and found.group(2) != "{":
            return found.group(2), found.group(1)
        found = re.match(rf"((?:pub |abbrev |unfoldable |pattern )*)({WORD})( \{{[^}}]*\}})? :( |$)", bare)
        if found and found.group(2) not in NO_NAMES:
            return found.group(2), "definition"
        if re.match(r"(pub|abbrev|unfoldable|pattern|axiom) ", bare):
            raise Fault(f"{place(self.path)}:{number}: no item that is known")
        return None

    def of(self, name):
        """What a name stands for that another file takes from here."""
        return self.own.get(name) or (look(*self.passed_on[name]) if name in self.passed_on else None)

    def find(self, name):
        return self.own.get(name) or super().find(name)


@functools.cache
def home(crate, module):
    return Home(crate, module)


# ---- which names of a text are free

def builds(found):
    """Whether what a name stands for can be a constructor."""
    return found is LEAF or isinstance(found, Type) or isinstance(found, Definition) and found.kind == "data"


def patterns(tokens, find):
    """The names that a pattern binds."""
    return (it for it in tokens if is_name(it) and "." not in it and not builds(find(it)))


def end_of_left_side(tokens):
    depth = 0
    for at, token in enumerate(tokens):
        depth += {"(": 1, "{": 1, "[": 1, ")": -1, "}": -1, "]": -1}.get(token, 0)
        if token == "=" and depth == 0:
            return at
    return 0


def until(tokens, at, ends):
    while at < len(tokens) and tokens[at] not in ends:
        yield tokens[at]
        at += 1


def bound_in(tokens, find):
    """The names that are bound within a text: by `λ`, `(x : A)`, `let` and the patterns of `elim`."""
    bound = set()
    for at, token in enumerate(tokens):
        if token == "λ":
            for it in until(tokens, at + 1, ".:"):
                # there is no blank behind the dot of `λ x.y`
                bound.add(it.split(".")[0])
                if "." in it:
                    break
        elif token in ("(", "{"):
            names = list(until(tokens, at + 1, SIGNS | NO_NAMES))
            if tokens[at + 1 + len(names):at + 2 + len(names)] == [":"]:
                bound.update(names)
        elif token == "let":
            bound.update(until(tokens, at + 1, "=:"))
        elif token == "↦":
            bound.update(patterns(until(tokens[at - 1::-1], 0, "|["), find))
    return bound


def named(tokens, bound, names):
    """What a text names, of what stands in these names, but for what is bound."""
    found = []
    for at, token in enumerate(tokens):
        before, after = tokens[at - 1] if at else "", tokens[at + 1] if at + 1 < len(tokens) else ""
        # the fields of a record that is given, and a field of what stands in brackets
        if not is_name(token) or before in ("{", ";") and after == "=" or before == "." and at > 1 and tokens[at - 2] in (")", "}"):
            continue
        head, _, rest = token.partition(".")
        it = names.behind(head, rest.split(".")[0]) if rest else None
        # a module may have the name of something that is bound: what it has is meant then
        if it is None and head not in bound:
            it = names.find(head)
        if it is not None:
            found.append(it)
    return found


# ---- the code

class Type:
    """A type, a trait or a constant that the code declares, with the lines that definitions rest on."""

    def __init__(self, crate, name, path, number, text, is_told):
        self.crate, self.name, self.path, self.number, self.text, self.is_told = crate, name, path, number, text, is_told

    kind = "type"
    key = property(lambda self: (self.crate, self.path, self.name))
    lines = property(lambda self: sum(1 for it in self.text if it.strip()))

    @functools.cached_property
    def needs(self):
        text = "\n".join(self.text)
        if self.is_told:
            return named(tokens_of(text), {"Self", "ghost", "Value", self.name}, ghost_names(sources(self.crate)[self.path]))
        found = []
        # not the names that are declared: the type's, and at the front of a line a variant's
        for word in re.findall(r"\b[A-Z]\w*", re.sub(r"^\s*(?:pub )?(?:(?:struct|enum|const) )?\w+", "", text, flags=re.M)):
            crate, name = self.taken().get(word, (self.crate, word))
            if is_own(crate) and name != self.name and name in types(crate):
                found.append(types(crate)[name][0])
        return found

    def taken(self):
        """What the `use` lines of its file bring: the crate and the name there."""
        found = {}
        for it in re.finditer(r"^\s*(?:pub )?use (\w+)(?:::\w+)*::(\{[^}]*\}|\w+(?: as \w+)?);", sources(self.crate)[self.path], re.M):
            for name, here in pairs(it.group(2).strip("{}")):
                found[here] = self.crate if it.group(1) == "crate" else it.group(1), name
        return found


@functools.cache
def sources(crate):
    """The files of a crate's code without comments."""
    found = {}
    for folder, _, files in sorted(os.walk(f"{CRATES}/{crate}/src")):
        for file in sorted(it for it in files if it.endswith(".rt")):
            with open(f"{folder}/{file}", encoding="utf-8") as it:
                found[f"{folder}/{file}"] = re.sub(r"//[^\n]*", "", it.read())
    return found


def ghosts(text, name):
    return [it.group(1) for it in re.finditer(rf"^\s*(ghost {name} ?[:=] \{{[^;]*\}};)", text, re.M)]


def ghost_names(text):
    names = Names()
    for it in re.finditer(r"^\s*(ghost use [^;]*;)", text, re.M):
        names.take(it.group(1))
    return names


@functools.cache
def types(crate):
    found = {}
    for path, text in sources(crate).items():
        for it in re.finditer(r"^[ \t]*(?:pub(?:\([a-z]+\))? )?(struct|enum|trait) (\w+)[^;{]*([;{])", text, re.M):
            end = it.end() if it.group(3) == ";" else closing(text, it.end() - 1)
            lines, kind, name = text[it.start():end].split("\n"), it.group(1), it.group(2)
            model = re.search(rf"^impl\b[^{{]*\bModel for {name}\b[^{{]*\{{", text, re.M)
            if model:
                lines = ghosts(text[model.end():closing(text, model.end() - 1)], "Value")
            if kind == "trait":
                lines = ghosts(text[it.end():end], r"\w+")
            number = text.count("\n", 0, it.start()) + 1
            found.setdefault(name, []).append(Type(crate, name, path, number, lines, bool(model) or kind == "trait"))
    return found


def type_of(crate, file, name):
    found = types(crate).get(name, [])
    for it in found:
        if it.path == f"{CRATES}/{crate}/src/{file}.rt":
            return it
    if not found:
        raise Fault(f"crates/{crate}/src declares no {name}")
    return found[0]


@functools.cache
def constant(crate, file, name):
    path = f"{CRATES}/{crate}/src/{file}.rt"
    text = sources(crate).get(path, "")
    it = re.search(rf"^pub const {name}\b", text, re.M)
    if not it:
        raise Fault(f"{place(path)} has no constant {name}")
    end = text.index(";\n", it.end()) + 1
    return Type(crate, name, path, text.count("\n", 0, it.start()) + 1, text[it.start():end].split("\n"), False)


class Call:
    """A function of the code with its clauses. Its name is `name`, `Type::name`, `Trait::name` or `file::name`."""

    def __init__(self, crate, name):
        if not is_own(crate):
            raise Fault(f"there is no crate {crate}")
        self.name = name
        owner, _, bare = name.rpartition("::")
        found = []
        for path, text in sources(crate).items():
            for it in re.finditer(rf"\bfn {re.escape(bare)}\b[^(]*", text):
                if not owner or owner in owners(path, text, it.start()):
                    found.append((path, text, it))
        found = [it for it in found if clauses(it[1], it[2].end())] or found
        if not found:
            raise Fault(f"crates/{crate}/src has no function {name}")
        if len(found) > 1:
            raise Fault(f"{name} stands in several places ({', '.join(place(it[0]) for it in found)}): write Type::{bare} or file::{bare}")
        self.path, text, it = found[0]
        self.clauses = clauses(text, it.end())
        self.names = ghost_names(text)
        self.params = {"result", "self", *re.findall(r"(\w+)\s*:", text[it.end():closing(text, it.end())])}

    def roots(self, wanted):
        """What its clauses name, those with these names, or all."""
        found = []
        for name in wanted:
            texts = [text for clause, text in self.clauses if name in (clause, "all")]
            if not texts:
                raise Fault(f"{self.name} has no clause {name}; it has {', '.join(clause for clause, _ in self.clauses) or 'none'}")
            for text in texts:
                tokens = tokens_of(text)
                found += named(tokens, bound_in(tokens, self.names.find) | self.params, self.names)
        return found


def owners(path, text, at):
    """What may stand before the name of the function at a place: its file, and the type or the trait that it belongs to."""
    found = [os.path.basename(path)[:-3]]
    for it in re.finditer(r"^(?:pub )?(?:impl|trait)\b([^{]*)\{", text, re.M):
        if it.end() <= at < closing(text, it.end() - 1):
            found += re.findall(r"\w+", it.group(1).rpartition(" for ")[2])
    return found


def clauses(text, at):
    """The clauses of a function whose parameters begin at a place, each with its name; without one it has the word's."""
    at, found = closing(text, at), []
    while True:
        it = re.compile(r"[^{;]*?\b(requires|ensures)\s*(\w*)\s*(?=\{)").match(text, at)
        if not it:
            return found
        at = closing(text, it.end())
        found.append((it.group(2) or it.group(1), text[it.end() + 1:at - 1]))


# ---- the walk

def reached(roots):
    """All that these reach and they themselves, each thing behind what it names."""
    seen, order = set(), []
    stack = [iter(roots)]
    open_things = [None]
    while stack:
        for it in stack[-1]:
            if it is not LEAF and it.key not in seen:
                seen.add(it.key)
                stack.append(iter([] if it.key in SHUT else it.needs))
                open_things.append(it)
                break
        else:
            stack.pop()
            order.append(open_things.pop())
    return order[:-1]


@functools.cache
def order_of_crates():
    with open(f"{ROOT}/crates.txt", encoding="utf-8") as lines:
        return [it.partition(":")[0] for it in lines if ":" in it and not it.startswith("#")]


def by_file(things):
    """The files of what was reached, the lowest crates first and in a crate what names nothing of the others first."""
    files, last = {}, {}
    for number, it in enumerate(things):
        files.setdefault(it.path, []).append(it)
        last[it.path] = number
    crates = order_of_crates()
    for path in sorted(files, key=lambda it: (crates.index(os.path.relpath(it, CRATES).split(os.sep)[0]), last[it])):
        yield path, sorted(files[path], key=lambda it: it.number)
