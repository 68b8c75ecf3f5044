"""Compares what Rattle, C, Rust and Python declare of the exported calls: arguments and structs.

A struct that C sees has the same fields everywhere, in the same order and of the same types. No
contract speaks of that order. The structs that belong together are found by the calls that take or
return them. The test also swaps neighbouring fields and changes the type of each, in memory, and
looks whether it notices.
"""

import ctypes
import re
import sys
from typing import Callable, NamedTuple

from tests import ROOT
from tests.support.case import Case
from tests.support.report import run_unit_tests

sys.path.insert(0, str(ROOT / "python"))

# Fields that Rattle names otherwise than the header, by struct; with a number, a place of an array.
RENAMED = {
    "Located": {"len": "length"},
    "Summary": {"quartile1": "first_quartile", "quartile3": "third_quartile"},
    "Values": {"men": "percentages 0", "women": "percentages 1", "cost": "cost_rates",
               "first": "first_classes"},
}
# The numbers of all languages. On x86-64 a size has 64 bits.
TYPES = {
    "u8": "u8", "u64": "u64", "i64": "i64", "usize": "u64", "f64": "f64",
    "uint8_t": "u8", "uint64_t": "u64", "int64_t": "i64", "size_t": "u64", "double": "f64",
    "c_ubyte": "u8", "c_ulong": "u64", "c_long": "i64", "c_double": "f64",
}
# What each type of a field is changed to.
OTHER_TYPES = {
    "u64": "i64", "i64": "u64", "usize": "i64", "f64": "u64",
    "uint64_t": "int64_t", "int64_t": "uint64_t", "double": "uint64_t",
    "c_uint64": "c_int64", "c_int64": "c_uint64", "c_double": "c_uint64",
}

COMMENT = re.compile(r"//.*|/\*(?s:.*?)\*/")
TYPE = re.compile(rf"\b(?:{'|'.join(OTHER_TYPES)})\b")
RUST_STRUCT = re.compile(r"^#\[repr\(C\)\]\n(?:#\[.*\n)*pub struct (\w+) \{\n((?s:.*?))^\}", re.M)
RUST_FIELD = re.compile(r"^    pub (\w+): (.*),$", re.M)
RATTLE_CALL = re.compile(r'pub extern "C" fn (\w+)\(((?s:.*?))\) -> (\w+)')
RUST_CALL = re.compile(r"pub fn (xaropinto_\w+)\(((?s:.*?))\) -> (\w+);")
C_STRUCT = re.compile(r"^typedef (struct) \{\n((?s:.*?))^\} (\w+);", re.M)
C_FIELD = re.compile(r"^    (\w+) (\w+)((?:\[\w+\])*);$", re.M)
C_CALL = re.compile(r"^(\w+) (xaropinto_\w+)\(([^;{]*)\);", re.M)
C_NUMBER = re.compile(r"^#define (\w+) ([\w+* ()-]+)$", re.M)
PYTHON_STRUCT = re.compile(r"^class (\w+)\(ctypes\.Structure\):\n"
                           r"    _fields_ = \[((?s:.*?))\]\n", re.M)
PYTHON_FIELD = re.compile(r'\("\w+", (?:[^()]|\([^()]*\))*\)')


class Call(NamedTuple):
    """A call's arguments and its reply, structs taken apart into named numbers."""

    arguments: list
    reply: list


class Declared:
    """What one language declares: structs, with type and length of each field; and calls."""

    def __init__(self, structs, calls):
        self.structs, self.used = structs, set()
        self.calls = {name: Call(list(map(self.numbers_of, arguments)), self.numbers_of(reply))
                      for name, (arguments, reply) in calls.items()}

    def numbers_of(self, kind):
        """A type of number, or the names and types of the numbers that a struct is made of."""
        if kind not in self.structs:
            return kind if kind.startswith("*") else TYPES[kind]
        self.used.add(kind)
        numbers = []
        for name, (inner, count) in self.structs[kind]:
            inside = self.numbers_of(inner)
            for at in range(count):
                place = f"{name} {at}" if count > 1 else name
                numbers += ([(place, inside)] if isinstance(inside, str)
                            else [(f"{place}.{each}", number) for each, number in inside])
        return numbers


def array_of(kind):
    """What an array of Rust or Rattle is made of, and how many; an array may hold arrays."""
    count = 1
    while found := re.fullmatch(r"\[(.*); (\d+)\]", kind):
        kind, count = found[1], count * int(found[2])
    return kind, count


def rust_structs(text):
    """The structs of Rust or Rattle that C sees."""
    return {name: [(field, array_of(kind)) for field, kind in RUST_FIELD.findall(body)]
            for name, body in RUST_STRUCT.findall(text)}


def kinds_of(arguments):
    """The types of arguments in Rust or Rattle; a slice is passed as a pointer and a length."""
    kinds = []
    for each in filter(str.strip, arguments.split(",")):
        kind = each.partition(":")[2].strip()
        slice_of = re.fullmatch(r"&(?:mut )?\[(\w+)\]", kind)
        pointer = re.sub(r"^\*(?:const|mut) ", "*", kind)
        kinds += ["*" + slice_of[1], "usize"] if slice_of else [pointer]
    return kinds


def read_rattle(text):
    """Rattle's declarations, its fields named as in the header."""
    structs = rust_structs(text)
    for struct, names in RENAMED.items():
        structs[struct] = [(names.get(field, field), kind) for field, kind in structs[struct]]
    return Declared(structs, {name: (kinds_of(arguments), reply)
                              for name, arguments, reply in RATTLE_CALL.findall(text)})


def read_rust(text):
    """Rust's declarations."""
    return Declared(rust_structs(text), {name: (kinds_of(arguments), reply)
                                         for name, arguments, reply in RUST_CALL.findall(text)})


def c_numbers(text):
    """The whole numbers that the header defines, by name."""
    numbers = {}
    for name, words in C_NUMBER.findall(re.sub(r"\\\n *", "", text)):
        words = re.sub(r"[A-Z_]+", lambda found: str(numbers[found[0]]), words)
        # By C_NUMBER these are digits, signs and brackets alone.
        numbers[name] = eval(words, {"__builtins__": {}})
    return numbers


def c_kind(words):
    """The type of an argument in C: a pointer by what it points to."""
    found = re.fullmatch(r"(?:const )?(\w+) (\*?)\w+", words.strip())
    return "*" + TYPES[found[1]] if found[2] else found[1]


def c_kinds(arguments):
    """The types of a call's arguments in C."""
    return [] if arguments == "void" else [c_kind(each) for each in arguments.split(",")]


def read_c(text):
    """The header's declarations."""
    numbers, structs = c_numbers(text), {}
    for _, body, name in C_STRUCT.findall(text):
        structs[name] = []
        for kind, field, sizes in C_FIELD.findall(body):
            count = 1
            for size in re.findall(r"\w+", sizes):
                count *= numbers[size] if size in numbers else int(size)
            structs[name].append((field, (kind, count)))
    return Declared(structs, {name: (c_kinds(arguments), reply)
                              for reply, name, arguments in C_CALL.findall(text)})


def python_kind(kind):
    """A type of ctypes as a word, and how many numbers it has."""
    if kind is ctypes.c_char_p:
        return "*u8", 1
    if hasattr(kind, "contents"):
        return "*" + TYPES[kind._type_.__name__], 1
    if hasattr(kind, "_length_"):
        return kind._type_.__name__, kind._length_
    return kind.__name__, 1


def read_python(text):
    """The declarations of the Python package, from its text: no library is loaded."""
    names = {"__name__": "xaropinto.calls"}
    exec(text, names)
    structs = {name: [(field, python_kind(kind)) for field, kind in each._fields_]
               for name, each in names.items()
               if isinstance(each, type) and issubclass(each, ctypes.Structure)}
    calls = [each for each in names.values() if isinstance(each, names["_Call"])]
    return Declared(structs, {call.name: ([python_kind(each)[0] for each in call.arguments],
                                          python_kind(call.reply)[0]) for call in calls})


class Language(NamedTuple):
    """How its declarations are read; the forms of a struct, whose body is group 2, and a field."""

    read: Callable
    text: str
    mark: str
    struct: re.Pattern
    field: re.Pattern

    def fields(self, text):
        """The places of the fields in a text, struct by struct."""
        return [[each.span() for each in self.field.finditer(text, *struct.span(2))]
                for struct in self.struct.finditer(text)]

    def lost(self):
        """How many structs are not found, and what of those that are is no field."""
        text = COMMENT.sub("", self.text)
        found = list(self.struct.finditer(text))
        rest = "".join(self.field.sub("", each[2]) for each in found)
        return text.count(self.mark) - len(found), rest.replace(",", "").strip()


def text_of(*patterns):
    """The text of all files of some patterns from the root."""
    paths = [path for pattern in patterns for path in sorted(ROOT.glob(pattern))]
    return "\n".join(path.read_text(encoding="utf-8") for path in paths)


LANGUAGES = {
    "Rattle": Language(read_rattle, text_of("crates/*/src/*.rt"), "#[repr(C)]",
                       RUST_STRUCT, RUST_FIELD),
    "C": Language(read_c, text_of("include/xaropinto.h"), "typedef struct", C_STRUCT, C_FIELD),
    "Rust": Language(read_rust, text_of("bindings/rust/src/*.rs"), "#[repr(C)]",
                     RUST_STRUCT, RUST_FIELD),
    "Python": Language(read_python, text_of("python/xaropinto/calls.py"), "(ctypes.Structure)",
                       PYTHON_STRUCT, PYTHON_FIELD),
}


def differing(declared, other):
    """The calls that two languages do not declare alike."""
    names = sorted(declared.calls.keys() | other.calls.keys())
    return [name for name in names if declared.calls.get(name) != other.calls.get(name)]


def swapped_fields(language):
    """The text with two neighbouring fields of a struct swapped, for each such two."""
    text = language.text
    for places in language.fields(text):
        for (start, end), (later, last) in zip(places, places[1:]):
            yield text[:start] + text[later:last] + text[end:later] + text[start:end] + text[last:]


def changed_types(language):
    """The text with the type of one field changed, for each field that is made of numbers."""
    text = language.text
    for place in (place for places in language.fields(text) for place in places):
        found = TYPE.search(text, *place)
        if found:
            yield text[:found.start()] + OTHER_TYPES[found[0]] + text[found.end():]


class Declarations(Case):
    """Each language against the header, and the header against Rattle."""

    @classmethod
    def setUpClass(cls):
        cls.declared = {name: each.read(each.text) for name, each in LANGUAGES.items()}

    def compared(self):
        """(name, language, its declarations, those that they are compared with)."""
        for name, language in LANGUAGES.items():
            other = self.declared["Rattle" if name == "C" else "C"]
            yield name, language, self.declared[name], other

    def test_every_struct_is_read(self):
        for name, language in LANGUAGES.items():
            self.check(name, language.lost() == (0, ""), language.lost())

    def test_every_struct_belongs_to_a_call(self):
        for name, declared in self.declared.items():
            unused = sorted(declared.structs.keys() - declared.used)
            self.check(name, declared.structs and not unused, unused)

    def test_calls_are_declared_alike(self):
        for name, _, declared, other in self.compared():
            wrong = differing(declared, other)
            self.check(f"{len(declared.calls)} calls of {name}", declared.calls and not wrong,
                       wrong)

    def test_swapped_fields_are_noticed(self):
        for name, language, _, other in self.compared():
            self.check_changes(name, swapped_fields(language), language, other)

    def test_changed_types_are_noticed(self):
        for name, language, _, other in self.compared():
            self.check_changes(name, changed_types(language), language, other)

    def check_changes(self, name, changes, language, other):
        """Each changed text is noticed."""
        changes = list(changes)
        missed = sum(not differing(language.read(each), other) for each in changes)
        self.check(f"{name}: {len(changes)} changes", changes and not missed, f"{missed} are not")


if __name__ == "__main__":
    sys.exit(run_unit_tests(sys.modules[__name__]))
