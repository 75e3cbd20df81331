"""Definitions of specs/, types of the code, laws and calls, and what each of them names.

A name leads to what its file imports or defines under it, by the text alone: that it leads there at all is the checker's, which reads the same text.
"""
import re

from tree import Unknown, crates, exists, read, source_files

WORD = r"(?!λ)[^\W\d][\w'\-]*"
TOKEN = re.compile(r"""(?P<string>"(?:[^"\\]|\\.)*")|(?P<comment>--.*|//.*)|(?P<name>(?<![\w'\-])%s)|(?P<sign>[^\s\w(){}\[\],;."']+)""" % WORD)
HEAD = re.compile(r"(?:abbrev pub|unfoldable pub|abbrev|unfoldable|pub record|pub data|record|data|pub) (\S+)")
TYPE = r"(?:pub(?:\([a-z]+\))? )?(?:enum|struct) %s\b"


def count(lines, comment):
    return sum(1 for line in map(str.strip, lines) if line.strip("{}(),;") and not line.startswith(comment))


def imports(text):
    """The names that a file imports, each with the module and the name there; and its names for whole modules."""
    names, aliases = {}, {}
    for target, listed in re.findall(r"^(?:pub |ghost )?use (Rattle\.[\w.]+?|[\w.]+)\.\{([^}]*)\}", text, re.M):
        for name in filter(None, (it.strip() for it in listed.split(","))):
            source, _, own = name.partition(" as ")
            names[(own or source).rstrip("?")] = (target, source)
    for target, alias in re.findall(r"^(?:pub )?use ([\w.]+) as (\w+)", text, re.M):
        aliases[alias] = target
    return names, aliases


class Definition:
    """A definition with its comment: the lines of its source."""

    def __init__(self, module, name, line, comment):
        self.module, self.name, self.line, self.comment, self.text = module, name, line, comment, []

    file = property(lambda self: self.module.file)
    crate = property(lambda self: self.module.crate)
    lines = property(lambda self: count(self.text, "--"))
    source = property(lambda self: self.comment + self.text)

    @property
    def shape(self):
        found = re.match(r"(?:pub )?(record|data) ", self.text[0])
        return found[1] if found else ""

    def members(self):
        """Fields of a record, constructors of a data."""
        found = [re.match(r"  (?:pub )?(%s)((?: %s)*) :" % (WORD, WORD), line) for line in self.text[1:] if self.shape]
        return [name for it in found if it for name in [it[1]] + it[2].split()]

    def equations(self):
        """Its head and its equations, or a record's and a data's lines, as pairs of what stands to the left of `=` and the whole."""
        pieces = []
        for line in self.text:
            if line.startswith("--"):
                continue
            if pieces and (line[:1] in " })]" or not line.strip()):
                pieces[-1] += "\n" + line
            else:
                pieces.append(line)
        return [("" if HEAD.match(it) else re.split(r" =(?:\s|$)", it, 1)[0], it) for it in pieces]


class Module:
    """A file of a crate's specs/."""

    def __init__(self, path, file):
        self.path, self.file, self.definitions, self.constructors = path, file, {}, {}
        text = read(file)
        self.names, self.aliases = imports(text)
        self.says = " ".join(re.sub(r"^-- ?", "", re.match(r"((?:--.*\n)*)", text)[1], flags=re.M).split())
        current, comment, inside = None, [], False
        for number, line in enumerate(text.split("\n"), 1):
            inside = line.startswith("module ") or inside
            line = line[2:] if inside and line.startswith("  ") else line
            head = HEAD.match(line)
            if line.startswith(("use ", "pub use ", "pub mod ", "mod ", "infix", "module ")):
                current, comment = None, []
            elif head:
                current = self.definitions[head[1]] = Definition(self, head[1], number, comment)
                current.text.append(line)
                comment = []
            elif line.startswith("--"):
                comment.append(line)
            elif not line.strip():
                comment = []
            elif current is not None:
                current.text += comment + [line]
                comment = []
        for it in self.definitions.values():
            for name in it.members() if it.shape == "data" else ():
                self.constructors.setdefault(name, it)
        self.operators = {part: name for name in [*self.definitions, *self.names] if "◌" in name for part in name.split("◌") if part}

    crate = property(lambda self: self.path.split(".")[1])


class CodeType:
    """An enum or a struct of the code, as its source has it."""

    def __init__(self, crate, file, name, line, source):
        self.crate, self.file, self.name, self.line, self.source = crate, file, name, line, source

    shape = "type"
    lines = property(lambda self: count(self.source, ("//", "#[")))

    def members(self):
        return re.findall(r"^    (?:pub )?(\w+)", re.sub(r"//[^\n]*", "", "\n".join(self.source)), re.M)


class Call:
    """A public function of the code with its clauses, or a law, as its source has it."""

    def __init__(self, crate, name):
        for file in source_files("crates/%s/src" % crate, ".rt"):
            lines = read(file).split("\n")
            for number, line in enumerate(lines):
                if re.match(r"\s*(?:pub )?fn %s\b" % re.escape(name), line):
                    below = next(it for it in range(number, len(lines)) if re.match(r"\s*\{", lines[it]) or lines[it].endswith((" {", ";")))
                    self.crate, self.name, self.file, self.line = crate, name, file, number + 1
                    self.source = lines[number:below]
                    self.names, self.aliases = imports(read(file))
                    return
        raise Unknown("%s: no function %s" % (crate, name))

    @property
    def clauses(self):
        at = next((it for it, line in enumerate(self.source) if line.startswith("    ensures")), len(self.source))
        return "\n".join(self.source[at:])


class Tree:
    """All definitions of the repository, and what each of them names."""

    def __init__(self):
        self.own, self.modules, self.types, self.known = {it.name for it in crates()}, {}, {}, {}
        for crate in sorted(self.own):
            for file in source_files("crates/%s/specs" % crate, ".antt"):
                path = "Rattle.%s.specs.%s" % (crate, file.split("/specs/")[1][: -len(".antt")].replace("/", "."))
                self.modules[path] = Module(path, file)

    def definitions(self):
        return [it for path in sorted(self.modules) for it in self.modules[path].definitions.values()]

    def resolve(self, target, name, where):
        """What a name of a module is: a definition, a type of the code, or None where it is the library's."""
        if target.split(".")[0] != "Rattle" or target.split(".")[1] not in self.own:
            return None
        if ".specs.declared." in target:
            modules, _, kind = re.match(r"([a-z_0-9.]*?)(\.?)([A-Z]\w*)", target.split(".specs.declared.")[1]).groups()
            return self.type_of(target.split(".")[1], modules.replace(".", "/"), kind, where)
        for path in (target, target + ".Lib"):
            module = self.modules.get(path)
            if module and name in module.definitions:
                return module.definitions[name]
            if module and name in module.names:
                return self.resolve(*module.names[name], where=where)
        owner, _, last = target.rpartition(".")
        if owner in self.modules and last in self.modules[owner].definitions:
            return self.modules[owner].definitions[last]
        raise Unknown("%s: %s of %s is nowhere" % (where, name, target))

    def type_of(self, crate, inside, name, where):
        folder = "crates/%s/src/" % crate
        for file in [folder + inside + ".rt"] if inside else [folder + "lib.rt", folder + "main.rt"]:
            found = exists(file) and self.type_in(crate, file, name)
            if found:
                return found
        raise Unknown("%s: no type %s in %s%s" % (where, name, folder, inside))

    def type_in(self, crate, file, name):
        if (file, name) not in self.types:
            self.types[file, name] = None
            lines = read(file).split("\n")
            for number, line in enumerate(lines):
                if re.match(TYPE % re.escape(name), line):
                    above = number
                    while above and lines[above - 1].startswith(("//", "#[")):
                        above -= 1
                    below = next(it for it in range(number, len(lines)) if re.match(r"\}|.*;\s*$|.*\{\}\s*$", lines[it]))
                    self.types[file, name] = CodeType(crate, file, name, above + 1, lines[above: below + 1])
                    break
        return self.types[file, name]

    def lead(self, it, name, before=""):
        """Where a name or sign leads that stands in a definition, a call or a type: a definition or a type, the name of a word of the library, or None."""
        if isinstance(it, CodeType):
            return self.type_named(it, name)
        module = it.module if isinstance(it, Definition) else it
        if before == ".":
            return None
        if name in module.names:
            return self.resolve(*module.names[name], where=module.file) or module.names[name][1]
        if isinstance(it, Definition):
            found = module.definitions.get(name) or module.constructors.get(name)
            if found:
                return found
            known = module.operators.get(name)
            if known:
                return module.definitions.get(known) or self.resolve(*module.names[known], where=module.file) or name
        return None

    def type_named(self, it, name):
        """The type of the repository of this name, where a field of a type may have it."""
        if name[:1].islower() or name == it.name:
            return None
        found = self.type_in(it.crate, it.file, name)
        for path, listed, lone in [] if found else re.findall(r"^use ([\w:]+?)::(?:\{([^}]*)\}|(\w+));", read(it.file), re.M):
            if name in re.findall(r"\w+", listed or lone):
                own = it.crate if path.split("::")[0] == "crate" else path.split("::")[0]
                files = source_files("crates/%s/src" % own, ".rt") if own in self.own else ()
                found = next(filter(None, (self.type_in(own, file, name) for file in files)), None)
        return found

    def tokens(self, it, line):
        """A line as pairs of a text and where it leads; `None` for what leads nowhere."""
        last = 0
        for found in TOKEN.finditer(line):
            before = line[found.start() - 1: found.start()]
            if found.start() > last:
                yield line[last: found.start()], None
            last = found.end()
            alias = getattr(getattr(it, "module", it), "aliases", {}).get(found["name"])
            member = alias and re.match(r"\.(%s)" % WORD, line[last:])
            if member:
                yield found[0], self.resolve(alias, member[1], it.file)
            else:
                yield found[0], self.lead(it, found[0], before) if found["name"] or found["sign"] else None
        yield line[last:], None

    def named(self, it, text=None):
        """The definitions and types that a definition names, in their order; or that a part of it does."""
        text = "\n".join(it.source) if text is None else text
        if (id(it), text) not in self.known:
            if isinstance(it, CodeType):  # a variant may be called as a type is
                text = re.sub(r"^    [A-Z]\w*", "", re.sub(r"//[^\n]*", "", text), flags=re.M)
            found = [to for line in text.split("\n") for _, to in self.tokens(it, line)]
            self.known[id(it), text] = [to for to in dict.fromkeys(found) if isinstance(to, (Definition, CodeType)) and to is not it]
        return self.known[id(it), text]

    def reached(self, roots, counts=lambda it: True):
        """All that some definitions reach, each once, from the top down: of what doesn't count nothing is followed."""
        found, left = {}, list(reversed(roots))
        while left:
            it = left.pop()
            if it not in found and counts(it):
                found[it] = None
                left += reversed(self.named(it))
        return list(found)
