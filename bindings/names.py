#!/usr/bin/env python3
"""Writes the names of spans and machines into limecove.h and rust/limecove/src/names.rs, each with the number that it is proved to have, and
those of spans into python/limecove.py.
Then compares the fields of what crosses the border, in order and with their widths, and the numbers, as crates/limecove/src, limecove.h
and rust/limecove-sys declare them.

usage: names.py [--check] [CRATE]    says what differs, and ends with 1 if something does; CRATE is read in place of crates/limecove
       names.py --write              writes the three files

The numbers are read from the definitions that the contracts of crates/limecove cite: specs/Names.antt, specs/Choices.antt and
specs/Records.antt. The comments are those of the Rattle sources. The status is 1 if a file would change, or two declarations differ: each
difference is a line.
"""

import re
import sys
from pathlib import Path

HERE = Path(__file__).resolve().parent
CRATES = HERE.parent / "crates"
sys.path.insert(0, str(HERE.parent / "tools"))
sys.dont_write_bytecode = True
import usage  # noqa: E402

parser = usage.Words(__doc__)
parser.add_argument("--check", action="store_true")
parser.add_argument("--write", action="store_true")
parser.add_argument("crate", nargs="?", type=Path, default=CRATES / "limecove")
WORDS = parser.parse_args()
LIMECOVE = WORDS.crate
HEADER, FOREIGN = HERE / "limecove.h", HERE / "rust/limecove-sys/src/lib.rs"
SAFE = HERE / "rust/limecove/src"
PYTHON = HERE / "python/limecove.py"
BEGIN, END = "/* written by names.py: begin */", "/* written by names.py: end */"
BEGIN_PYTHON, END_PYTHON = "# written by names.py: begin\n", "# written by names.py: end\n"


def comments_of(path, enum):
    """The variants of an enum with their doc comments, in order."""
    body = re.search(rf"pub enum {enum} \{{\n(.*?)\n\}}", path.read_text(), re.S).group(1)
    found, lines = {}, []
    for line in body.splitlines():
        line = line.strip()
        if line.startswith("///"):
            lines.append(line)
        elif match := re.fullmatch(r"(\w+),", line):
            found[match.group(1)] = lines
            lines = []
    return found


def numbered(pairs):
    """Names in the order of their numbers, which are 0, 1, 2 and so on."""
    pairs = sorted((int(number), name) for name, number in pairs)
    assert [number for number, _ in pairs] == list(range(len(pairs))), "numbers are not 0, 1, 2 .."
    return [name for _, name in pairs]


def proved_names():
    """The names of spans."""
    text = (LIMECOVE / "specs/Names.antt").read_text()
    return numbered(re.findall(r"^number_of (\w+) = (\d+)$", text, re.M))


def proved_machines():
    """The machines."""
    text = (LIMECOVE / "specs/Choices.antt").read_text()
    return numbered((name, number) for number, name in re.findall(r"\(nat_eq n (\d+)\) \(Some ([A-Z]\w+)\)", text))


# Machines that read no Markdown: the engine is tested by them.
TEST_MACHINES = ["Lines", "Peek", "Deep", "Back", "Save"]


def snake(name):
    return re.sub(r"(?<!^)(?=[A-Z])", "_", name).upper()


def void_names():
    """The names of spans that hold no other."""
    text = (CRATES / "markdown_base/specs/VoidNames.antt").read_text()
    return set(re.findall(r"\w+", text.split("void_names =")[1]))


def enum_in_c(about, name, prefix, variants, left_out=()):
    """An enum with numbers from 0 on, and without some variants. The last one has no comma, as C90 wants it."""
    lines = [f"    {prefix}{snake(variant)} = {number}," for number, variant in enumerate(variants) if variant not in left_out]
    return [f"/* {about} */", f"enum limecove_{name} {{", *lines[:-1], lines[-1][:-1], "};"]


MACHINES_IN_C = """The machines that read: LIMECOVE_DOCUMENT whole documents; LIMECOVE_FLOW the same without block quotes, lists and definitions;
 * LIMECOVE_TEXT paragraphs with code spans, autolinks and escapes alone; LIMECOVE_PARAGRAPHS paragraphs of data."""
TEST_MACHINES_IN_C = "More machines, for tests of the library alone: what they read is no Markdown."


def header(old, names, machines):
    """The header with the enums between its two marks."""
    voids = void_names()
    assert voids <= set(names), "a void name is no name"
    lines = enum_in_c(MACHINES_IN_C, "machine", "LIMECOVE_", machines, TEST_MACHINES) + [""]
    others = [it for it in machines if it not in TEST_MACHINES]
    lines += enum_in_c(TEST_MACHINES_IN_C, "test_machine", "LIMECOVE_", machines, others) + [""]
    lines += enum_in_c("What a span is.", "name", "LIMECOVE_NAME_", names) + [""]
    lines += ["/* X(NAME, \"Name\", is_void) for each name, in the order of their numbers: define X, and use it. */", "#define LIMECOVE_EACH_NAME(X) \\"]
    each = [f'    X({snake(name)}, "{name}", {int(name in voids)}) \\' for name in names]
    lines += [*each[:-1], each[-1][:-2]]
    before, rest = old.split(BEGIN)
    after = rest.split(END)[1]
    return before + BEGIN + "\n" + "\n".join(lines) + "\n" + END + after


def python(old, names):
    """The module for Python with the names between its two marks."""
    before, rest = old.split(BEGIN_PYTHON)
    lines = ["# The names of spans, in the order of their numbers.", "NAMES = (", *[f'    "{name}",' for name in names], ")"]
    return before + BEGIN_PYTHON + "\n".join(lines) + "\n" + END_PYTHON + rest.split(END_PYTHON)[1]


def rust_enum(name, about, variants, comments, derives):
    lines = [f"/// {about} More may be added.", f"#[derive({derives})]", "#[non_exhaustive]", "#[repr(u32)]", f"pub enum {name} {{"]
    for number, variant in enumerate(variants):
        is_machine = name == "Machine"
        if is_machine and variant in TEST_MACHINES:
            lines += ["    /// For tests of the library alone.", "    ///"]
        lines += [f"    {line}" for line in comments[variant]]
        if is_machine and variant in TEST_MACHINES:
            lines.append("    #[doc(hidden)]")
        if is_machine and variant == "Document":
            lines.append("    #[default]")
        lines.append(f"    {variant} = {number},")
    return lines + ["}", ""]


def rust_list(name, of, variants):
    return [f"    pub const {of}: &'static [{name}] = &[", *[f"        {name}::{variant}," for variant in variants], "    ];", ""]


def rust_all(name, variants, for_tests=()):
    """The list of all variants, but for those for tests, which have another, and the name of each as text."""
    all_of_them = "All that read Markdown" if for_tests else "All of them"
    lines = [f"impl {name} {{", f"    /// {all_of_them}, in the order of their numbers."]
    lines += rust_list(name, "ALL", [it for it in variants if it not in for_tests])
    if for_tests:
        lines += ["    /// Those for tests of the library alone, which read no Markdown.", "    #[doc(hidden)]", *rust_list(name, "FOR_TESTS", for_tests)]
    lines += ["    /// As it is declared.", "    pub const fn as_str(self) -> &'static str {", "        match self {"]
    return lines + [f'            {name}::{variant} => "{variant}",' for variant in variants] + ["        }", "    }", ""]


def rust_void(name, voids):
    """Whether a span of a name is void."""
    lines = ["    /// Whether it is void: a span of it holds no other.", "    pub const fn is_void(self) -> bool {", "        matches!(", "            self,"]
    lines += [f"            {'    | ' * (i > 0)}{name}::{variant}" for i, variant in enumerate(voids)]
    return lines + ["        )", "    }", ""]


def rust(names, machines):
    """The Rust file."""
    derives = "Clone, Copy, Debug, PartialEq, Eq, PartialOrd, Ord, Hash"
    name_comments = comments_of(CRATES / "markdown_base/src/event.rt", "Name")
    machine_comments = comments_of(CRATES / "mddocument/src/choice.rt", "Which")
    lines = ["//! Names of spans and machines, with their numbers. Written by `bindings/names.py`.", "", "use std::fmt;", "use std::str::FromStr;", ""]
    lines += rust_enum("Machine", "A machine: what reads a document.", machines, machine_comments, "Clone, Copy, Debug, Default, PartialEq, Eq, Hash")[:-1]
    lines += ["", *rust_all("Machine", machines, TEST_MACHINES)[:-1], "}", ""]
    lines += rust_enum("Name", "What a span is. A *void* name is that of a span that holds no other.", names, name_comments, derives)[:-1]
    lines += ["", *rust_all("Name", names), *rust_void("Name", [name for name in names if name in void_names()])]
    lines += ["    /// The name of a number, if there is one.", "    pub(crate) fn of(number: u32) -> Option<Name> {"]
    lines += ["        Name::ALL.get(usize::try_from(number).ok()?).copied()", "    }", "}", ""]
    for name in ["Machine", "Name"]:
        lines += ["/// As it is declared.", f"impl fmt::Display for {name} {{", "    fn fmt(&self, f: &mut fmt::Formatter<'_>) -> fmt::Result {"]
        lines += ["        f.pad(self.as_str())", "    }", "}", ""]
        lines += ["/// From its name as it is declared.", f"impl FromStr for {name} {{", "    type Err = UnknownName;", ""]
        tests = ".chain(Machine::FOR_TESTS)" if name == "Machine" else ""
        lines += [f"    fn from_str(text: &str) -> Result<{name}, UnknownName> {{", f"        let mut all = {name}::ALL.iter(){tests};"]
        lines += ["        all.find(|it| it.as_str() == text)", "            .copied()", "            .ok_or(UnknownName)", "    }", "}", ""]
    lines += ["/// A text is the name of nothing.", "#[derive(Clone, Copy, Debug, PartialEq, Eq)]", "pub struct UnknownName;", ""]
    lines += ["impl fmt::Display for UnknownName {", "    fn fmt(&self, f: &mut fmt::Formatter<'_>) -> fmt::Result {"]
    lines += ['        f.write_str("no such name")', "    }", "}", "", "impl std::error::Error for UnknownName {}"]
    return "\n".join(lines) + "\n"


# What crosses the border: the name of each struct in both Rattle and Rust, and where Rattle declares it.
RANGES = CRATES / "mddocument/src/ranges.rt"
STRUCTS = {"Record": "record.rt", "TextOptions": "choose.rt", "Options": "choose.rt", "HtmlOptions": "choose.rt", "Answer": "lib.rt", "ByteRange": RANGES, "Changed": "edits.rt", "Named": "edits.rt", "Place": "edits.rt", "Defined": "labels.rt"}
# The same type in Rattle and Rust, and in C.
TYPES = {"u16": "uint16_t", "u32": "uint32_t", "u64": "uint64_t", "usize": "size_t"}
# The fields of a reading, as the three declare them. `kept` is a struct of one pointer.
READING = r"""pub struct Kept \{\s*at: \*mut u8,\s*pub\(crate\) ghost [^\n]*\s*\}.*?pub struct Reading \{\s*pub is_open: usize,\s*pub kept: Kept,\s*ghost"""
READING_IN_RUST = r"pub struct Reading \{\s*pub is_open: usize,\s*pub list: \*mut c_void,\s*\}"
READING_IN_C = r"struct limecove_reading \{\s*size_t is_open;\s*void \*list;\s*\}"
# Those of a document that can be edited.
DOCUMENT = READING.replace("Kept", "KeptDocument").replace("Reading", "Document")
DOCUMENT_IN_RUST = r"pub struct Document \{\s*pub is_open: usize,\s*pub held: \*mut c_void,\s*\}"
DOCUMENT_IN_C = r"struct limecove_document \{\s*size_t is_open;\s*void \*held;\s*\}"


def uncommented(path):
    """A text without its comments."""
    return re.sub(r"//[^\n]*|/\*.*?\*/", "", path.read_text(), flags=re.S)


def in_c(name):
    """The type of a Rattle struct or number in C."""
    return TYPES.get(name) or f"struct limecove_{snake(name).lower()}"


def fields(path, struct):
    """The fields of a struct in Rattle or Rust, in order: each name, and its type in C. It must be laid out as C does."""
    found = re.search(rf"#\[repr\(C\)\]\s*(?:#\[[^\]]*\]\s*)*pub struct {struct} \{{(.*?)\}}", uncommented(path), re.S)
    if found is None:
        return []
    declared = [re.fullmatch(r"pub (\w+): (\w+)", it.strip()) for it in found[1].split(",") if it.strip()]
    return [it and (it[1], in_c(it[2])) for it in declared]


def fields_in_c(struct):
    """The fields of a struct of the header, in order: each name, and its type."""
    found = re.search(rf"{in_c(struct)} \{{(.*?)\}}", uncommented(HEADER), re.S)
    lines = [it.strip() for it in found[1].split(";") if it.strip()] if found else []
    declared = [re.fullmatch(r"(.*?)\s+(\w+(?:, \w+)*)", it) for it in lines]
    return [(name, it[1]) for it in declared for name in it[2].split(", ")]


def numbers(path, pattern):
    """Names and numbers as a text has them."""
    return {name.upper(): int(number) for name, number in re.findall(pattern, uncommented(path))}


def enum_numbers(enum):
    """Names and numbers of an enum of the header."""
    body = re.search(rf"enum limecove_{enum} \{{(.*?)\}}", uncommented(HEADER), re.S)[1]
    return {name: int(number) for name, number in re.findall(r"LIMECOVE_(\w+) = (\d+)", body)}


def differences():
    """A line for each difference between the declarations."""
    lines = []
    for struct, file in STRUCTS.items():
        ours, rust, c = fields(LIMECOVE / "src" / file, struct), fields(FOREIGN, struct), fields_in_c(struct)
        for other, theirs in [(FOREIGN, rust), (HEADER, c)]:
            if not ours or None in ours or ours != theirs:
                lines.append(f"{other}: {struct} has the fields {theirs}, and {ours} in {file}")
    for path, wanted in [(LIMECOVE / "src/kept.rt", READING), (FOREIGN, READING_IN_RUST), (HEADER, READING_IN_C)]:
        if not re.search(wanted, uncommented(path), re.S):
            lines.append(f"{path}: a reading has other fields")
    for path, wanted in [(LIMECOVE / "src/document.rt", DOCUMENT), (FOREIGN, DOCUMENT_IN_RUST), (HEADER, DOCUMENT_IN_C)]:
        if not re.search(wanted, uncommented(path), re.S):
            lines.append(f"{path}: a document has other fields")
    root = numbers(LIMECOVE / "src/code.rt", r"pub const (\w+): u32 = (\d+);")
    bits = numbers(LIMECOVE / "src/choose.rt", r"pub const (\w+): u64 = (\d+);")
    rust = numbers(FOREIGN, r"pub const (?!WHY_)(\w+): u(?:32|64) = (\d+);")
    c = numbers(HEADER, r"#define LIMECOVE_(VERSION) (\d+)")
    c |= enum_numbers("code") | enum_numbers("construct") | enum_numbers("permission")
    for other, theirs in [(FOREIGN, rust), (HEADER, c)]:
        if len(root) != 13 or len(bits) != 35 or theirs != root | bits:
            lines.append(f"{other}: the numbers are {theirs}, and {root | bits} in code.rt and choose.rt")
    contents = numbers(LIMECOVE / "specs/Records.antt", r"(?m)^content_number (\w+) = (\d+)$")
    contents["CONTENT"] = contents.pop("CONTENTOFCONTENT", None)
    rust = {name.upper(): int(number) for number, name in re.findall(r"(\d+) => Content::(\w+)", uncommented(SAFE / "event.rs"))}
    rust["TEXT"] = 4 if "_ => Content::Text" in uncommented(SAFE / "event.rs") else None
    for other, theirs in [(SAFE / "event.rs", rust), (HEADER, numbers(HEADER, r"LIMECOVE_CONTENT_(\w+) = (\d+)"))]:
        if theirs != contents:
            lines.append(f"{other}: contents are {theirs}, and {contents} in Records.antt")
    whys = numbers(LIMECOVE / "specs/Editing.antt", r"(?m)^why_number why\.(\w+) = (\d+)$")
    for other, theirs in [(FOREIGN, numbers(FOREIGN, r"pub const WHY_(\w+): u32 = (\d+);")), (HEADER, numbers(HEADER, r"LIMECOVE_WHY_(\w+) = (\d+)"))]:
        if not whys or theirs != whys:
            lines.append(f"{other}: why a section is named is {theirs}, and {whys} in Editing.antt")
    kinds = numbers(LIMECOVE / "specs/Records.antt", r"(?m)^kind_number (\w+) = (\d+)$")
    if kinds != enum_numbers("kind"):
        lines.append(f"{HEADER}: kinds are {enum_numbers('kind')}, and {kinds} in Records.antt")
    return lines


def main():
    names, machines = proved_names(), proved_machines()
    files = {HEADER: header(HEADER.read_text(), names, machines), SAFE / "names.rs": rust(names, machines)}
    files[PYTHON] = python(PYTHON.read_text(), names)
    stale = [path for path, text in files.items() if not path.exists() or path.read_text() != text]
    for path in stale:
        if WORDS.write:
            path.write_text(files[path])
        else:
            print(f"{path}: not what names.py writes", file=sys.stderr)
    found = differences()
    for line in found:
        print(line, file=sys.stderr)
    return 1 if found or stale and not WORDS.write else 0


sys.exit(main())
