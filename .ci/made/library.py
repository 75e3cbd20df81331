"""The declarations of the library for C, Rust and Python, made of the exports of crates/ants_c and of the structs that they take."""
import collections
import re
import textwrap

from tree import Unknown, read, source_files

SOURCE = "crates/ants_c/src"
STATUSES, VERSION, NUMBERS = SOURCE + "/status.rt", SOURCE + "/version.rt", "crates/ants_c/specs/Numbers.antt"
HEAD = "library/ants.h.in"
PLAIN = {"u8": "uint8_t", "u16": "uint16_t", "u32": "uint32_t", "u64": "uint64_t", "usize": "size_t"}
WIDTH, RUST_WIDTH = 120, 150
RUST_HEAD = """//! The structs and functions of the library as `library/ants.h` has them; made of the same source by `make documents`.
//!
//! Each function hands on what a slice and a reference are, which is all that the library asks of a pointer. So it is safe.
#![allow(clippy::too_many_arguments)]
"""
FRONT_HEAD = """/* What stands between a caller in C and the proved functions; made of the same source as ants.h by `make documents`, and not proved. The place of no
   elements may be anything in C, as NULL, and may not in Rattle: another one is handed on for it. library/link gives the proved functions their names
   here, and shows none of them. */
#include "ants.h"

/* The place of no elements: it is aligned for each type, and nobody reads or writes there. */
static _Alignas(16) uint8_t none[16];
#define PLACE(elements) (elements##_len ? elements : (void *)none)
"""
PYTHON_HEAD = '''"""What libants.so declares, as library/ants.h has it; made of the same source by `make documents`."""
import ctypes
import enum
from ctypes import %s

'''
KINDS = " The kinds are"  # what a list of kinds stands below


class Struct:
    """A struct of the source: its docs, and its fields with theirs."""

    def __init__(self, name, docs, fields):
        self.name, self.docs, self.fields = name, docs, fields

    @property
    def c_name(self):
        # a struct's tag is a type of its own in C, but not in C++, where a function of that name would hide it
        return snake(self.name) + "_data"

    @property
    def plain_name(self):
        return re.sub("^Ants", "", self.name)

    def docs_without_kinds(self, instead):
        """The docs, with another text in the place of the list of kinds that ends them."""
        for place, line in enumerate(self.docs):
            if line.endswith(KINDS):
                return self.docs[:place] + [line + instead]
        return self.docs


# A kind of fault: its number, its name, and what is wrong, in words.
Kind = collections.namedtuple("Kind", "number name says")

# As a caller in C gives it: whether behind a pointer, whether that is written through, and the type in the source.
Parameter = collections.namedtuple("Parameter", "name behind changes kind")


class Export:
    """A function of the source that has a name for the linker, which answers a status: its docs, and its parameters but for the allocator."""

    def __init__(self, name, docs, given):
        self.name, self.docs, self.given = name, docs, given

    @property
    def parameters(self):
        """The parameters as a caller in C gives them: a slice is a pointer and a length."""
        for name, rust in self.given:
            it = re.fullmatch(r"(&(?:mut )?)?(\[)?(\w+)\]?", rust)
            if not it:
                raise Unknown("%s: a parameter of type %s" % (self.name, rust))
            yield Parameter(name, bool(it[1]), it[1] == "&mut ", it[3])
            if it[2]:
                yield Parameter(name + "_len", False, False, "usize")


def snake(name):
    """A name of Rust's types as C writes it."""
    return re.sub(r"(?<!^)([A-Z])", r"_\1", name).lower()


def docs_above(text, at):
    """The lines of the doc comment that stands above this place."""
    above = re.search(r"(?:^ *(?:///|#\[).*\n)*\Z", text[:at], re.M)[0]
    return [line.strip()[4:] for line in above.split("\n") if line.strip().startswith("///")]


def sources():
    """The text of each file of the crate, its root first."""
    files = sorted(source_files(SOURCE, ".rt"), key=lambda it: (not it.endswith("/lib.rt"), it))
    return [read(it) for it in files]


def found(pattern, mark, texts):
    """Each place of a pattern, with its text; as many as there are places of the mark that it begins with."""
    for text in texts:
        places = list(re.finditer(pattern, text, re.S))
        if len(places) != text.count(mark):
            raise Unknown("%s: %s is not before all that is read of it" % (SOURCE, mark))
        yield from ((it, text) for it in places)


def structs(texts):
    """The structs that a caller in C sees, in the order of their files."""
    for it, text in found(r"#\[repr\(C\)\]\n(?:#\[[^\n]*\]\n)*pub struct (\w+) \{\n(.*?)\n\}", "#[repr(C)]", texts):
        fields = re.findall(r"((?: *///.*\n)*) *pub (\w+): (\w+),", it[2] + "\n")
        yield Struct(it[1], docs_above(text, it.start()), [(name, kind, docs_above(docs, len(docs))) for docs, name, kind in fields])


def exports(texts):
    """The exported functions, in the order of their files."""
    for it, text in found(r'#\[unsafe\(no_mangle\)\]\n(?:#\[[^\n]*\]\n)*pub extern "C" fn (\w+)\(([^()]*)\) -> u32\n', "#[unsafe(no_mangle)]", texts):
        given = [(name, kind.strip()) for name, kind in re.findall(r"(\w+): ([^,]+),?", " ".join(it[2].split()))]
        yield Export(it[1], docs_above(text, it.start()), [(name, kind) for name, kind in given if kind != "Global"])


def version():
    """The version of the source: its docs, and its text."""
    found = re.findall(r'((?:///.*\n)*)pub const VERSION: &str = "([^"]*)";', read(VERSION))
    if len(found) != 1:
        raise Unknown("%s: no one version" % VERSION)
    return " ".join(docs_above(found[0][0], len(found[0][0]))), found[0][1]


def statuses():
    """What a call answers: each name with its docs and its number."""
    rows = re.findall(r"((?:///.*\n)*)pub const (\w+): u32 = (\d+);", read(STATUSES))
    return [(name, " ".join(docs_above(docs, len(docs))), number) for docs, name, number in rows]


def kinds(structs):
    """The kinds of faults: named as the definition of their numbers names them, in the words of the list in the docs of a struct."""
    named = dict(reversed(it) for it in re.findall(r"^\w*numbers\w* .*?([A-Z]\w*)[^A-Z]* = (?:bare|at_line|record \{ kind =) ([1-9]\d*)", read(NUMBERS), re.M))
    found = []
    for item in " ".join(" ".join(line for it in structs for line in it.docs).partition(KINDS)[2].split()).split("- ")[1:]:
        of = re.match(r"of a (?:\w+ )*(\w+), ", item)
        for number, says in re.findall(r"(\d+): (.*?)[;.](?: |$)", item):
            name = snake((of[1].title() if of else "") + named.pop(number, "")).upper()
            found.append(Kind(number, name, says))
    if named or not found or not all(it.name for it in found):
        raise Unknown("%s: other kinds than the docs of their struct list" % NUMBERS)
    return found


class Library:
    """The exports and the structs, and how each language declares them."""

    def __init__(self):
        texts = sources()
        self.structs, self.exports, self.statuses = {it.name: it for it in structs(texts)}, list(exports(texts)), statuses()
        self.version_says, self.version = version()
        self.kinds = kinds(self.structs.values())
        if not self.exports or not self.statuses:
            raise Unknown("%s: no exports, or no statuses" % SOURCE)

    def c_type(self, rust):
        if rust in PLAIN:
            return PLAIN[rust]
        if rust in self.structs:
            return "struct " + self.structs[rust].c_name
        raise Unknown("%s: no C type for %s" % (SOURCE, rust))

    def c_version(self):
        return '// %s\n#define ANTS_VERSION "%s"\n' % ("\n// ".join(textwrap.wrap(self.version_says, WIDTH + 20)), self.version)

    def c_enums(self):
        rows = [(name, number, docs) for name, docs, number in self.statuses], [("KIND_" + it.name, it.number, it.says) for it in self.kinds]
        for says, name, these in zip(("What a call answers.", "The kinds of faults."), ("status", "kind"), rows):
            yield "// %s\nenum ants_%s {\n%s};\n" % (says, name, "".join("    ANTS_%s = %s, // %s\n" % row for row in these))

    def c_struct(self, struct):
        lines = ["struct %s {" % struct.c_name]
        for name, kind, docs in struct.fields:
            lines += ["    // " + line for line in docs] + ["    %s %s;" % (self.c_type(kind), name)]
        return comment(struct.docs_without_kinds(" those of enum ants_kind."), "// ") + "\n".join(lines) + "\n};\n"

    def c_export(self, export):
        return comment(export.docs, "// ") + self.c_signature(export.name, export) + ";\n"

    def c_signature(self, name, export):
        given = ["const " * (it.behind and not it.changes) + self.c_type(it.kind) + " " + "*" * it.behind + it.name for it in export.parameters]
        return c_call("uint32_t %s" % name, given, "    ")

    def front(self):
        """library/front.c: each function of the header, over the proved one."""
        out = [FRONT_HEAD]
        for it in self.exports:
            lengths = {parameter.name for parameter in it.parameters}
            passed = ["PLACE(%s)" % given.name if given.name + "_len" in lengths else given.name for given in it.parameters]
            call = c_call("    return proved_%s" % it.name, passed, "        ")
            out.append("%s;\n%s {\n%s;\n}\n" % (self.c_signature("proved_" + it.name, it), self.c_signature(it.name, it), call))
        return "\n".join(out)

    def header(self):
        """library/ants.h: the head, which says what a caller owes, and the declarations."""
        declared = [self.c_version(), *self.c_enums()] + [self.c_struct(it) for it in self.structs.values()] + [self.c_export(it) for it in self.exports]
        head = read(HEAD)
        if head.count("@declarations@\n") != 1:
            raise Unknown("%s: no one place for the declarations" % HEAD)
        return head.replace("@declarations@\n", "\n".join(declared))

    def rust(self):
        """library/rust/src/raw.rs: the same for Rust, and each function over slices and references, which have all that it asks of a pointer."""
        out = [RUST_HEAD, '/// %s\npub const VERSION: &str = "%s";\n' % (self.version_says, self.version), "\n".join("/// %s\npub const %s: u32 = %s;" % (docs, name, number) for name, docs, number in self.statuses) + "\n"]
        out.append("/// The kinds of faults.\npub mod kind {\n%s}\n" % "".join("    /// %s\n    pub const %s: u32 = %s;\n" % (it.says[0].upper() + it.says[1:] + ".", it.name, it.number) for it in self.kinds))
        for it in self.structs.values():
            fields = "".join("%s    pub %s: %s,\n" % (comment(docs, "    /// "), name, kind) for name, kind, docs in it.fields)
            out.append("%s#[repr(C)]\n#[derive(Clone, Copy, Debug, Default, PartialEq, Eq)]\npub struct %s {\n%s}\n" % (comment(it.docs_without_kinds(" those of [`kind`]."), "/// "), it.plain_name, fields))
        out += [self.rust_export(it) for it in self.exports]
        declared = "".join(self.rust_declaration(it) for it in self.exports)
        return "\n".join(out) + "\nmod c {\n    use super::{%s};\n\n    extern \"C\" {\n%s    }\n}\n" % (", ".join(it.plain_name for it in self.structs.values()), declared)

    def rust_type(self, kind):
        return self.structs[kind].plain_name if kind in self.structs else kind

    def rust_declaration(self, export):
        given = ["%s: %s%s" % (it.name, ("*mut " if it.changes else "*const ") * it.behind, self.rust_type(it.kind)) for it in export.parameters]
        return rust_call("        pub fn ", export.name, given, " -> u32;\n")

    def rust_export(self, export):
        given = ["%s: %s" % (name, re.sub(r"\w+(?=\]?$)", lambda it: self.rust_type(it[0]), kind)) for name, kind in export.given]
        passed = []
        for name, kind in export.given:
            changes = "mut_" if "&mut" in kind else ""
            passed += ["%s.as_%sptr()" % (name, changes), name + ".len()"] if "[" in kind else [name]
        body = "    unsafe { c::%s(%s) }\n" % (export.name, ", ".join(passed))
        if len(body) > RUST_WIDTH + 1:
            body = "    unsafe {\n%s    }\n" % rust_call("        c::", export.name, passed, "\n")
        return comment(export.docs, "/// ") + rust_call("pub fn ", export.name, given, " -> u32 {\n") + body + "}\n"

    def python(self):
        """library/icfp_ants/_declared.py: the statuses, the kinds of faults, the structs, and the types of what each function is given."""
        out = ['VERSION = "%s"' % self.version]
        out += ["%s = %s  # %s" % (name, number, docs) for name, docs, number in self.statuses] + ["", ""]
        out += ["class Kind(enum.IntEnum):", '    """What is wrong with a text, or with none. The numbers stay."""']
        out += ["    %s = %s  # %s" % (it.name, it.number, it.says) for it in self.kinds] + ["", ""]
        for it in self.structs.values():
            fields = ", ".join('("%s", %s)' % (name, c_types(kind)) for name, kind, _ in it.fields)
            out += ["class %s(ctypes.Structure):" % it.plain_name] + wrapped("_fields_ = [%s]" % fields, "    ") + ["", ""]
        out.append("FUNCTIONS = {")
        for it in self.exports:
            given = ", ".join(map(self.python_type, it.parameters))
            out += wrapped('"%s": [%s],' % (it.name, given), "    ")
        text = "\n".join(out + ["}"]) + "\n"
        return PYTHON_HEAD % ", ".join(sorted(set(re.findall(r"POINTER|\bc_\w+", text)))) + text

    def python_type(self, parameter):
        kind = parameter.kind
        of = self.structs[kind].plain_name if kind in self.structs else c_types(kind)
        return "c_char_p" if parameter.behind and kind == "u8" else "POINTER(%s)" % of if parameter.behind else of


def c_call(name, given, indent):
    """A call or a signature in C, wrapped below its name."""
    lines = textwrap.wrap(", ".join(it.replace(" ", "\0") for it in given), WIDTH - len(indent), break_long_words=False)
    return "%s(\n%s%s)" % (name, indent, ("\n" + indent).join(lines).replace("\0", " "))


def rust_call(before, name, given, after):
    """A call or a signature in the layout of rustfmt: in a line, or with a line a part."""
    line = "%s%s(%s)" % (before, name, ", ".join(given))
    if len(line + after.rstrip("\n")) <= RUST_WIDTH:
        return line + after
    indent = " " * (len(before) - len(before.lstrip()))
    return "%s%s(\n%s%s)%s" % (before, name, "".join("%s    %s,\n" % (indent, it) for it in given), indent, after)


def c_types(kind):
    return "c_size_t" if kind == "usize" else "c_" + PLAIN[kind][:-2]


def wrapped(text, indent):
    return textwrap.wrap(text, WIDTH + 20, initial_indent=indent, subsequent_indent=indent * 2, break_long_words=False)


def comment(docs, mark):
    return "".join((mark + line).rstrip() + "\n" for line in docs)


def pages():
    library = Library()
    yield "library/ants.h", library.header()
    yield "library/front.c", library.front()
    yield "library/rust/src/raw.rs", library.rust()
    yield "library/icfp_ants/_declared.py", library.python()
