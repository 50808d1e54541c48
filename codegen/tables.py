"""The rows of tables of message types, and what is wrong with them: docs/MESSAGES.md says what they are."""

import re
from dataclasses import dataclass, field
from functools import lru_cache


def snake(name):
    """The name of a type in small letters."""
    return re.sub(r"(?<!^)([A-Z])", r"_\1", name).lower()


def camel(name):
    """A name of small letters as that of a type."""
    return "".join(word.capitalize() for word in name.split("_"))


@lru_cache(None)
def parts_of(rule):
    """The tag's digits and the texts of a rule that asks whether the last text under a tag is one of some."""
    body = rule.removeprefix("if ")
    equal = re.fullmatch(r"0x([0-9A-F]{6})==([^=\s](?:[^=]*[^=\s])?)", body)
    if equal:
        return equal[1], (equal[2],)
    among = re.fullmatch(r"0x([0-9A-F]{6}) in \[([^=]*)\]", body)
    return (among[1], tuple(text.strip() for text in among[2].split(","))) if among else None


@dataclass(frozen=True)
class Leaf:
    """A kind of leaf: what a table calls it, its type of Rust, that type in definitions where it has another name there, its type of item,
    and whether it owns memory."""

    word: str
    rust: str
    definition: str
    typ: str
    owns: bool = False


LEAVES = {
    leaf.word: leaf
    for leaf in [
        Leaf("integer", "i32", "ℤ", "Integer"),
        Leaf("long_integer", "i64", "ℤ", "LongInteger"),
        Leaf("date_time", "DateTime", "DateTime", "DateTime"),
        Leaf("boolean", "bool", "Boole", "Boolean"),
        Leaf("interval", "Interval", "Interval", "Interval"),
        Leaf("enumeration", "u32", "ℕ", "Enumeration"),
        Leaf("text_string", "String<A>", "String A", "TextString", owns=True),
        Leaf("byte_string", "Vec<u8, A>", "Vec ℕ A", "ByteString", owns=True),
        Leaf("big_integer", "BigNumber<A>", "BigNumber A", "BigInteger", owns=True),
    ]
}

# What a module imports, by its path, if it names it.
RUST_NAMES = {
    "kmip_ttlv::error": "Error",
    "kmip_ttlv_kinds": "Alone Any Before Choice Decided Element Four FromParts Holds InBox Inside Leaf LeafItem Listed ListedItem Maybe MaybeLeaf MaybeOneOf Of One OneOf"
    " PartList Rest Several Structure Under Walk Wrapper decode_structure is_apart is_structure_whole read_choice read_structure structures_come_back visit_structure",
    "kmip_ttlv_parts": "Boxed Enumeration Kept",
    "kmip_ttlv_parts::laws": "Message Sound is_none_of",
    "kmip_ttlv_parts::reader": "BigNumber Cursor DateTime Interval RuleParts Scope Step",
    "kmip_ttlv_parts::shape": "Decode Serialize",
    "kmip_ttlv_parts::types": "TtlvType",
    "kmip_ttlv_parts::visit": "Visitor",
    "std::alloc": "AllocError Allocator Global",
}

# Names that a type can't have, since written files have them in another sense: the parameters of types, and imports.
TYPE_NAMES = {name for names in RUST_NAMES.values() for name in names.split() if name[0].isupper()} | set(
    "A W Box Clone Copy Debug Drop Eq Err None Ok Option PartialEq Result Self Some String TheVariants Type Vec types".split()
)

# The part that holds what stands behind those of a table's rows, where a structure keeps that.
REST = "other_items"

# Names that a part can't have, since written code has them in another sense; and the module of an Enumeration's constants.
PART_NAMES = set("alloc cursor reader scope state tag visitor inner".split())
MODULE_NAMES = set("alloc core reader std types".split())
METHODS = {"decode", "from_content", "from_parts", "tell_parts", "visit"}

# Words of Rust and of the prover that name nothing.
RESERVED = set(
    "abstract as async await become box break const continue crate do dyn else ensures enum extern false final fn for ghost"
    " gen if impl in let loop macro match mod move mut override priv pub ref requires result return self static struct super"
    " trait true try type typeof unsafe use where while".split()
)


class Bad(Exception):
    """What is wrong with a row."""


BOXED = "'boxed' is for a structure that comes once or may be absent, as a part of another or a variant"


@dataclass(eq=False)
class Module:
    """A file of some types, src/NAME.rt: of another crate where `crate` names one."""

    crate: str
    name: str
    doc: str = ""

    @property
    def is_own(self):
        return not self.crate


@dataclass(eq=False)
class Part:
    """A part of a structure. `kind` is leaf, constant, or type."""

    name: str
    kind: str
    tag: str
    doc: str
    count: str = "one"  # or optional, or several, or any: as many as there are, also none
    leaf: Leaf = None
    number: str = ""
    type: "Type" = None
    owner: str = ""  # the type that it is a part of, as a name of definitions
    line: int = 0  # that of its row
    is_boxed: bool = False  # whether it stands on the heap

    @property
    def at(self):
        """It in definitions, of the structure x."""
        return f"x.{self.name}"

    @property
    def is_sequence(self):
        return self.count in ("several", "any")

    @property
    def is_constant(self):
        return self.kind == "constant"

    @property
    def constant(self):
        """Of a constant, the type that it is read as."""
        return camel(self.owner) + camel(self.name)

    @property
    def owns(self):
        return self.is_sequence or self.is_boxed or bool(self.leaf and self.leaf.owns) or bool(self.type and self.type.owns)

    @property
    def is_chosen(self):
        """Whether a rule chooses it by a text before it."""
        return bool(self.type and self.type.rule_tag)

    @property
    def is_open(self):
        return bool(self.type and self.type.is_open)

    def keeps(self, tag):
        """Whether a text of this tag may be kept as it is decoded. (A Structure keeps none under its own tag.)"""
        is_structure = self.count == "one" and self.type and self.type.is_structure
        return (not is_structure and self.tag == tag) or bool(self.type and self.type.keeps(tag))

    def said(self, at):
        """The text of it that later rules see, in definitions, of what stands at a place; empty where there is none."""
        if self.leaf and self.leaf.word == "text_string":
            return f"(string_bytes {at})"
        if self.type and self.type.is_enumeration:
            return f"(text_of_number {at}.number)" if self.is_open else f"({self.type.snake}_number {at})"
        return ""

    def text_in_code(self, at, chosen):
        """The text, or the number, by which it chooses among the variants of a choice, in code, of what stands at a place."""
        if chosen.is_by_numbers:
            return f"{at}.number"
        if self.type and self.type.is_enumeration:
            return f"{at}.number_text(){'.as_str()' * self.is_open}"
        return f"{at}.as_str()"


@dataclass(eq=False)
class Chosen:
    """A part that a rule chooses, and the part by whose text it does: the decider, which may be absent as the part may be."""

    part: Part
    decider: Part

    @property
    def is_simple(self):
        return self.part.count == self.decider.count == "one"

    def test_at(self, at, said):
        """What decides that, in code, of what stands at a place, and of what the decider says."""
        return f"{at}.chosen_by() == {said}" if self.part.type.is_by_numbers else f"{at}.is_chosen_by({said})"

    @property
    def body(self):
        """The lines of the function that decides it."""
        own, other = f"self.{self.part.name}", f"self.{self.decider.name}"
        there, said = (self.decider.text_in_code(at, self.part.type) for at in (other, "said"))
        if self.is_simple:
            return [self.test_at(own, there)]
        if self.part.count == "one":
            matched, arms = f"&{other}", [f"Some(said) => {self.test_at(own, said)},", "None => false,"]
        elif self.decider.count == "one":
            matched, arms = f"&{own}", [f"Some(inner) => {self.test_at('inner', there)},", "None => true,"]
        else:
            matched = f"(&{other}, &{own})"
            arms = [f"(Some(said), Some(inner)) => {self.test_at('inner', said)},", "(None, Some(_)) => false,", "(_, None) => true,"]
        return [f"match {matched} {{", *(f"    {arm}" for arm in arms), "}"]


@dataclass(eq=False)
class Variant:
    """A variant of an Enumeration, of a group or of a choice: a number, or what it holds."""

    name: str
    line: int
    doc: str = ""
    tag: str = ""
    number: str = ""
    type: "Type" = None
    rule: str = ""
    is_broken: bool = False
    owner: str = ""  # the type that it is a variant of, as a name of definitions
    is_boxed: bool = False  # whether what it holds stands on the heap; of a group, the part that it lends
    leaf: Leaf = None  # the kind of leaf that it holds

    @property
    def constant(self):
        """Of a constant, the type that it is read as."""
        return camel(self.owner) + self.name

    @property
    def rule_parts(self):
        """Its rule in parts, if it asks whether the last text under a tag is one of some."""
        return parts_of(self.rule)

    @property
    def chosen_type(self):
        """The type of item that its rule asks for, if it asks for one."""
        asked = re.fullmatch(r"if type==(\w+)", self.rule)
        return asked[1] if asked else ""

    @property
    def inner(self):
        """The choice that it holds, if it holds one."""
        return self.type if self.type and self.type.kind == "choice" else None

    @property
    def wrapper(self):
        return self.type if self.type and self.type.kind == "wrapper" else None

    @property
    def typ(self):
        """The type of its item."""
        if self.leaf:
            return self.leaf.typ
        return "Enumeration" if self.number or self.type.is_enumeration else "Structure"

    def test(self, owner):
        """Whether a text chooses it, in code; of a type of item, whether the text names no other variant."""
        texts = " || ".join(f'text == "{text}"' for text in self.rule_parts[1]) if self.rule_parts else f"is_no_{owner.snake}(text)"
        return f"({texts}) && inner.is_chosen_by(text)" if self.inner else texts

    def chooses(self, owner):
        """The same in definitions."""
        if self.rule_parts:
            *first, last = [f'(said ≡ codes "{text}")' for text in self.rule_parts[1]]
            chooses = "".join(f"{one} ⊎ (" for one in first[:-1]) + (f"{first[-1]} ⊎ " if first else "") + last + ")" * (len(first) - 1)
        else:
            chooses = f"IsNoneOf said {owner.snake}_names"
        return f"({chooses}) × Chooses{self.inner.name} said x" if self.inner else chooses


@dataclass(eq=False)
class OneOf:
    """A row `one_of` of a structure: parts of which exactly one is to be there."""

    name: str
    doc: str
    group: "Type"
    parts: list
    owner: "Type"

    @property
    def relation(self):
        """The definition that says which one is there."""
        return f"Is{self.owner.name}{camel(self.name)}"

    @property
    def is_one(self):
        """That exactly one is there, in definitions."""
        *first, last = [f"there {part.at}" for part in self.parts]
        return "".join(f"{one} + (" for one in first[:-1]) + (f"{first[-1]} + " if first else "") + last + ")" * (len(first) - 1) + " ≡ 1"

    def holds(self, place):
        """That the one at a place is there alone, of what is lent as x, in definitions."""
        is_there = [f"({part.at} ≡ {'Some inner.now' if k == place else 'None'})" for k, part in enumerate(self.parts)]
        if self.parts[place].is_boxed:
            is_there[place] = f"(IsSomeAnd {self.parts[place].at} (λ y. y.inner.value ≡ inner.now))"
        return " × ".join(is_there)

    def pattern(self, place):
        """The pattern in code where it is there alone."""
        there = ("Some(inner)" if k == place else "None" for k in range(len(self.parts)))
        return f"({', '.join(there)})" if len(self.parts) > 1 else "Some(inner)"

    def lent(self, place):
        """What it lends of the one that is there, in code."""
        return "inner.inner.as_ref()" if self.parts[place].is_boxed else "inner"


@dataclass(eq=False)
class Type:
    """A type, of the kind that its row begins with."""

    kind: str
    name: str
    line: int
    module: Module
    doc: str = ""
    own_tag: str = ""
    parts: list = field(default_factory=list)
    variants: list = field(default_factory=list)
    shape_name: str = ""  # of a choice
    is_plain: bool = False  # of a choice
    denies: bool = False  # whether a structure is closed: refuses what follows its parts
    keeps_rest: bool = False  # whether a structure keeps what follows its parts
    one_ofs: list = field(default_factory=list)
    is_broken: bool = False  # whether something is wrong with its rows
    is_by_listed: bool = False  # of a choice, whether the text of a closed Enumeration chooses
    is_kept: bool = False  # whether it is the library's structure that is kept as it is

    @property
    def is_open(self):
        """Whether it is an Enumeration of any number."""
        return self.kind == "open"

    @property
    def is_enumeration(self):
        return self.kind in ("enumeration", "open")

    @property
    def is_structure(self):
        return self.kind in ("structure", "message", "wrapper")

    @property
    def snake(self):
        return snake(self.name)

    @property
    def screaming(self):
        return self.snake.upper()

    @property
    def tag(self):
        """Its tag; of a plain choice that of its variants."""
        return next((v.tag for v in self.variants if v.tag), "") if self.is_plain else self.own_tag

    @property
    def owns(self):
        chosen = [found for variant in self.variants for found in (variant.type, variant.leaf) if found]
        is_boxed = self.kind == "choice" and any(variant.is_boxed for variant in self.variants)
        return self.is_kept or self.keeps_rest or is_boxed or any(part.owns for part in self.parts) or any(found.owns for found in chosen)

    @property
    def given(self):
        """The parts that a value has."""
        return [part for part in self.parts if not part.is_constant]

    @property
    def named(self):
        """Of a choice, the variants that a text chooses."""
        return [variant for variant in self.variants if variant.rule_parts] if self.kind == "choice" else []

    @property
    def typed(self):
        """Of a choice, the variants behind these."""
        return self.variants[len(self.named) :] if self.kind == "choice" else []

    @property
    def rule_tag(self):
        """Of a choice, the tag of the text that chooses among its variants, where all rules on texts are of one tag, no two of one
        text, and what other variants there are stand behind those, each by its type, where these are by one text each."""
        rules = [variant.rule_parts for variant in self.named]
        texts = [text for _, texts in rules for text in texts]
        is_one = len({tag for tag, _ in rules}) == 1 and len(texts) == len(set(texts)) and self.variants[: len(rules)] == self.named
        single = all("==" in variant.rule for variant in self.named)
        return rules[0][0] if is_one and (not self.typed or single and are_by_types(self.typed)) else ""

    @property
    def is_mixed(self):
        """Whether a text chooses some of its variants, and types the others."""
        return bool(self.rule_tag and self.typed)

    @property
    def is_by_numbers(self):
        """Whether each of its rules names numbers of an Enumeration."""
        return self.names_numbers and not self.typed

    @property
    def names_numbers(self):
        """Whether each of its rules on texts names numbers of an open Enumeration."""
        texts = [text for variant in self.named for text in variant.rule_parts[1]]
        return bool(self.rule_tag) and not self.is_by_listed and all(re.fullmatch("0x[0-9A-F]{8}", text) for text in texts)

    @property
    def is_by_types(self):
        """Whether it is a choice of which each rule asks for the type of its variant's item, and no two for one."""
        return self.kind == "choice" and not self.named and are_by_types(self.variants)

    @property
    def has_heads(self):
        """Whether it is a choice whose variants are items of several types."""
        return self.kind == "choice" and len({variant.typ for variant in self.variants}) > 1

    def keeps(self, tag):
        """Whether a text of this tag may be kept of what is in its item."""
        return any(part.keeps(tag) for part in self.parts) or any(variant.type.keeps(tag) for variant in self.variants if variant.type)

    def decider_of(self, chosen):
        """The part by whose text a part is chosen, if there is one, and no part between them keeps another of its tag."""
        before = self.parts[: self.parts.index(chosen)]
        found = [place for place, part in enumerate(before) if part.tag == chosen.type.rule_tag]
        if len(found) != 1 or before[found[0]].is_sequence or not before[found[0]].said("x"):
            return None
        decider = before[found[0]]
        if decider.is_open != chosen.type.names_numbers or decider.count == "optional" and not decider.is_open:
            return None
        return None if any(part.keeps(decider.tag) for part in before[found[0] + 1 :]) else decider

    @property
    def choices(self):
        """Its parts that rules choose, each with the part that decides."""
        return [Chosen(part, self.decider_of(part)) for part in self.parts if part.is_chosen and self.decider_of(part)]


def are_by_types(variants):
    """Whether each of these is chosen by the type of its item, and no two by one."""
    asked = [variant.chosen_type for variant in variants]
    return asked == [variant.typ for variant in variants] and len(asked) == len(set(asked))


@dataclass
class Table:
    """What a table says, and what is wrong with its rows."""

    crate: str = ""
    modules: list = field(default_factory=list)
    types: list = field(default_factory=list)
    faults: list = field(default_factory=list)  # (line, reason)

    def types_of(self, module):
        """The types that are written to a module."""
        return [t for t in self.types if t.module is module]

    @property
    def own_modules(self):
        return [module for module in self.modules if module.is_own]


# ---- Rows ----


class Words:
    """The words of a row, one after the other."""

    def __init__(self, row):
        self.rest = row.strip()

    def word(self, what):
        if not self.rest:
            raise Bad(f"{what} is missing")
        word, _, self.rest = self.rest.partition(" ")
        self.rest = self.rest.lstrip()
        return word

    def next_is(self, *words):
        """Takes the next word if it is one of these."""
        word = self.rest.split(" ")[0]
        return self.word("") if word in words else ""

    def field_name(self, what):
        word = self.word(what)
        if not re.fullmatch("[a-z][a-z0-9_]*", word) or word in RESERVED:
            raise Bad(f"'{word}' is no name: {what} has small letters, digits and _, and is no word of Rust's")
        return word

    def type_name(self, what):
        word = self.word(what)
        if not re.fullmatch("[A-Z][A-Za-z0-9]*", word):
            raise Bad(f"'{word}' is no name: {what} begins with a capital, and has letters and digits")
        return word

    def digits(self, what, count):
        word = self.word(what)
        if not re.fullmatch(f"[0-9A-F]{{{count}}}", word):
            raise Bad(f"'{word}' is no {what.split()[-1]}: it has {count} hexadecimal digits, letters as capitals")
        return word

    def tag(self):
        return self.digits("the tag", 6)

    def next_tag(self):
        """Takes the next word if it is a tag."""
        return self.word("") if re.match("[0-9A-F]{6}( |$)", self.rest) else ""

    def number(self):
        return self.digits("the number", 8)

    def one_of(self, what, *words):
        word = self.word(what)
        if word not in words:
            raise Bad(f"'{word}' is no {what.split(' ', 1)[1]}: it is {' or '.join(words)}")
        return word

    def description(self):
        if not self.rest:
            raise Bad("the description is missing: what this is for")
        return self.rest

    def end(self):
        if self.rest:
            raise Bad(f"nothing is expected behind this, but '{self.rest}' stands there")


class Reader:
    """Reads a table, row by row. A bad row is reported once: rows that depend on it are taken as if it were good."""

    def __init__(self, text, crate="", elsewhere=lambda crate: None, names_of=lambda found: [found.name]):
        self.table = Table()
        self.folder = crate
        self.elsewhere = elsewhere  # another crate's table, to take its types from
        self.names_of = names_of  # the names that written files have of a type
        self.is_unknown = False  # whether rows follow of a type that is not known
        self.lacks_crate = False  # whether it was reported that the row of the crate is missing
        self.rules = {
            "crate": self.crate_row, "module": self.module_row, "elsewhere": self.elsewhere_row, "structure": self.type_row,
            "message": self.type_row, "wrapper": self.type_row, "enumeration": self.type_row, "choice": self.choice_row, "group": self.group_row,
        }  # fmt: skip
        for self.line, row in enumerate(text.split("\n"), 1):
            if row.strip() and not row.startswith("#"):
                self.row(row)
        for found in self.table.types:
            self.line = found.line
            self.attempt(self.check_whole, found)
        self.check_names()
        self.table.faults.sort()

    def attempt(self, action, *arguments):
        """Whether nothing is wrong; what is wrong is reported of the present line."""
        try:
            action(*arguments)
            return True
        except Bad as bad:
            self.table.faults.append((self.line, str(bad)))
            return False

    def row(self, row):
        words = Words(row)
        if row[0].isspace():
            owner = self.table.types[-1] if self.table.types else None
            if not self.is_unknown and not self.attempt(self.part_row, owner, row.startswith("    "), words) and owner:
                owner.is_broken = True
            return
        kind = words.word("")
        self.is_unknown = kind not in self.rules
        before, name = len(self.table.types), words.rest.split(" ")[0]
        if not self.attempt(self.rules.get(kind, self.unknown_row), kind, words):
            self.recover(kind, name, before)

    def recover(self, kind, name, before):
        """Takes a bad row for what it would have been, so that nothing is reported of the rows that depend on it."""
        if kind == "crate":
            self.table.crate = self.table.crate or "unknown"
        elif kind in ("module", "elsewhere") or not self.table.modules:
            self.table.modules.append(Module("unknown", "unknown"))
        if kind not in ("crate", "module", "elsewhere"):
            if len(self.table.types) == before:
                self.table.types.append(self.new_type(kind, name))
            self.table.types[-1].is_broken = True

    def unknown_row(self, kind, words):
        raise Bad(f"'{kind}' begins no row: a row begins with {', '.join(self.rules)}, or two spaces for a part")

    def crate_row(self, kind, words):
        name = words.field_name("a crate's name")
        if self.table.crate:
            raise Bad("the crate is named twice")
        words.end()
        self.table.crate = name
        if self.folder and name != self.folder:
            raise Bad(f"the crate's name is that of its folder, '{self.folder}'")

    def module_row(self, kind, words):
        name = words.field_name("a module's name")
        if not self.table.crate and not self.lacks_crate:
            self.lacks_crate = True
            raise Bad("the row of the crate is missing before this")
        if name in ("lib", "main", "tests", "std", "core", "alloc"):
            raise Bad(f"'{name}' is the name of another file of the crate")
        if any(other.is_own and other.name == name for other in self.table.modules):
            raise Bad(f"'{name}' is a module already")
        self.table.modules.append(Module("", name, words.description()))

    def elsewhere_row(self, kind, words):
        """Takes all types of another crate's table, and of those that it takes from others, for these to be parts of its own."""
        crate = words.field_name("a crate's name")
        words.end()
        other = self.elsewhere(crate)
        if not other:
            raise Bad(f"'{crate}' has no table, or one with bad rows")
        for module in other.modules:
            module.crate = module.crate or crate
            if module not in self.table.modules:
                self.table.modules.append(module)
        for found in other.types:
            found.line = self.line
            if found not in self.table.types:
                self.add_type(found)

    def add_type(self, found):
        if not self.table.modules:
            raise Bad("the row of a module is missing before this")
        if self.type_called(found.name):
            raise Bad(f"'{found.name}' is a type already")
        if found.name in TYPE_NAMES:
            raise Bad(f"'{found.name}' can't be a type's name: the files that are written have it in another sense")
        self.table.types.append(found)

    def type_called(self, name):
        return next((found for found in self.table.types if found.name == name), None)

    def new_type(self, kind, name, **more):
        module = self.table.modules[-1] if self.table.modules else None
        return Type(kind, name, self.line, module, **more)

    def type_row(self, kind, words):
        found = self.new_type(kind, words.type_name("a type's name"), own_tag=words.tag())
        if kind == "enumeration":
            found.kind = {"open": "open", "closed": "enumeration"}[words.one_of("an Enumeration's kind", "open", "closed")]
            if found.is_open and found.snake in RESERVED | MODULE_NAMES:
                raise Bad(f"'{found.name}' can't be a type's name: the module of its constants would be '{found.snake}'")
        else:
            word = words.one_of("a structure's kind", "open", "closed", "kept")
            found.denies, found.keeps_rest = word != "open", word == "kept"
            if found.keeps_rest and kind == "wrapper":
                raise Bad("a wrapper has one part that is always there, and constants")
        found.doc = words.description()
        self.add_type(found)

    def choice_row(self, kind, words):
        found = self.new_type(kind, words.type_name("a type's name"))
        found.shape_name = words.field_name("the choice's name in its shape")
        found.is_plain = bool(words.next_is("plain"))
        found.own_tag = "" if found.is_plain else words.tag()
        found.doc = words.description()
        self.add_type(found)

    def group_row(self, kind, words):
        found = self.new_type(kind, words.type_name("a type's name"))
        found.doc = words.description()
        self.add_type(found)

    def part_row(self, owner, is_behind, words):
        if not owner:
            self.is_unknown = True
            raise Bad("the row of a type with parts is missing before this")
        if is_behind:
            if owner.kind == "choice":
                return self.rule_row(owner, words)
            if owner.is_broken:
                return None
            raise Bad("a row of four spaces is the rule of a variant of a choice, before it")
        if owner.kind in ("choice", "group") or owner.is_enumeration:
            return self.variant_row(owner, words)
        if words.rest.split(" ")[1:2] == ["one_of"]:
            return self.one_of_row(owner, words)
        part = self.part_of(owner, words)
        self.check_part(owner, part)
        self.add_part(owner, part)

    def part_of(self, owner, words):
        name = words.field_name("a part's name")
        count = words.next_is("optional", "several") or "one"
        if count == "optional" and words.next_is("several"):
            count = "any"
        boxed = bool(words.next_is("boxed"))
        word = words.word("the part's kind or type")
        if boxed and word in (*LEAVES, "constant", "kept"):
            raise Bad(BOXED)
        if word in LEAVES:
            return Part(name, "leaf", words.tag(), words.description(), count, leaf=LEAVES[word])
        if word == "constant":
            return Part(name, "constant", words.tag(), "", count, number=words.number())
        if word == "kept":
            kept = self.kept(words.tag())
            return Part(name, "type", kept.tag, words.description(), count, type=kept)
        found = self.known_type(owner, word)
        tag = words.next_tag() if found.kind == "structure" else ""
        return Part(name, "type", tag or found.tag, words.description(), count, type=found, is_boxed=boxed)

    def one_of_row(self, owner, words):
        """Reads a row of parts of which exactly one is to be there: each may be absent."""
        name = words.field_name("a part's name")
        words.word("")
        found = self.type_called(words.word("the group"))
        if not found or found.kind != "group" or owner.kind not in ("structure", "message"):
            raise Bad("'one_of' is for a group of a row before, in a structure")
        doc = words.description()
        parts = []
        for variant in found.variants:
            if variant.type:
                part = Part(snake(variant.name), "type", variant.tag, variant.doc, "optional", type=variant.type, is_boxed=variant.is_boxed)
                self.check_part(owner, part)
                self.add_part(owner, part)
                parts.append(part)
        if name in METHODS or name in [other.name for other in owner.parts]:
            raise Bad(f"'{name}' is a part or a field of this type already, or has another sense in its code")
        owner.one_ofs.append(OneOf(name, doc, found, parts, owner))

    def kept(self, tag):
        """The library's structure that is kept as it is, under a tag."""
        return Type("structure", "Kept", self.line, Module("kmip_ttlv_parts", "kept"), own_tag=tag, is_kept=True)

    def known_type(self, owner, word):
        found = self.type_called(word)
        if not found or found is owner or found.kind == "group":
            raise Bad(f"'{word}' is no kind of leaf ({', '.join(LEAVES)}), and no type of a row before")
        if found.kind == "message":
            raise Bad(f"'{word}' is a message, and no part of another type")
        return found

    def check_part(self, owner, part):
        if part.name in PART_NAMES or owner.keeps_rest and part.name == REST:
            raise Bad(f"'{part.name}' can't be a part's name: the code that is written has it in another sense")
        if part.is_sequence and part.type and part.type.kind == "choice":
            raise Bad("a choice comes once or may be absent")
        if part.is_constant and part.count != "one":
            raise Bad("a constant comes once")
        if part.is_boxed and (part.is_sequence or part.type.kind != "structure"):
            raise Bad(BOXED)
        if part.type and part.type.kind == "wrapper" and (part.count != "one" or not part.type.module.is_own):
            raise Bad("a wrapper comes once, in its own crate")
        if owner.kind == "wrapper" and not part.is_constant and (part.count in ("optional", "any") or owner.given):
            raise Bad("a wrapper has one part that is always there, and constants")

    def add_part(self, owner, part):
        if part.name in [other.name for other in owner.parts]:
            raise Bad(f"'{part.name}' is a part of this type already")
        part.owner, part.line = owner.snake, self.line
        owner.parts.append(part)

    def variant_row(self, owner, words):
        name = words.word("a variant's name")
        variant = Variant(name, self.line, is_broken=True, owner=owner.snake)
        owner.variants.append(variant)
        Words(name).type_name("a variant's name")
        if name == "Self" or name in [other.name for other in owner.variants[:-1]]:
            raise Bad(f"'{name}' is a variant of this type already")
        if owner.is_enumeration:
            variant.number = words.number()
            if variant.number in [other.number for other in owner.variants[:-1]]:
                raise Bad(f"the number {variant.number} is that of another variant")
        elif owner.kind == "group":
            self.member(owner, variant, words)
        else:
            self.content(owner, variant, words)
        variant.doc = words.description()
        variant.is_broken = False

    def member(self, owner, variant, words):
        """Reads which type a member of a group is."""
        variant.is_boxed = bool(words.next_is("boxed"))
        found = self.known_type(owner, words.word("the type"))
        if variant.is_boxed and found.kind != "structure":
            raise Bad(BOXED)
        if found.kind in ("choice", "wrapper") or found.tag in [other.tag for other in owner.variants[:-1]]:
            raise Bad(f"'{found.name}' is no member of a group: a structure or an Enumeration, each of its own tag")
        variant.tag, variant.type = found.tag, found

    def content(self, owner, variant, words):
        """Reads what is in a variant of a choice."""
        variant.is_boxed = bool(words.next_is("boxed"))
        word = words.word("what is in the variant")
        if variant.is_boxed and word in (*LEAVES, "constant", "kept"):
            raise Bad(BOXED)
        if word == "constant" and not owner.is_plain:
            variant.tag, variant.number = owner.own_tag, words.number()
        elif word in LEAVES and not owner.is_plain:
            variant.tag, variant.leaf = owner.own_tag, LEAVES[word]
        elif word == "kept" and owner.tag:
            variant.tag, variant.type = owner.tag, self.kept(owner.tag)
        else:
            found = self.type_called(word)
            if not found or found is owner or found.kind in ("group", "message", "enumeration"):
                raise Bad(f"'{word}' is not in a variant: a leaf or a constant unless it is plain, or a structure, an open Enumeration or a choice before")
            if found.kind == "choice" and (found.is_plain or owner.is_plain or found.own_tag != owner.own_tag):
                raise Bad("a choice in a choice has its tag, and neither is plain")
            if found.kind == "wrapper" and not found.module.is_own:
                raise Bad("a wrapper comes once, in its own crate")
            if variant.is_boxed and found.kind != "structure":
                raise Bad(BOXED)
            variant.tag, variant.type = found.tag, found
        others = [other for other in owner.variants[:-1] if not other.is_broken]
        is_known = not (variant.type and variant.type.is_broken)
        if is_known and variant.type and variant.type.is_structure and not owner.is_plain and variant.tag != owner.own_tag:
            raise Bad(f"a Structure in a choice has the choice's tag, {owner.own_tag}: it is decoded by its own, {variant.tag}")
        if owner.is_plain and is_known and any(other.tag != variant.tag for other in others):
            raise Bad("the variants of a plain choice have one tag")

    def rule_row(self, owner, words):
        if not re.fullmatch(r'if [ -!#-\[\]-~]+', words.rest):
            raise Bad("a rule begins with if, and has no quotation mark, no backslash and no letter beyond ASCII")
        if not owner.variants:
            raise Bad("the row of a variant is missing before this")
        if owner.variants[-1].rule or words.rest in [other.rule for other in owner.variants]:
            raise Bad("this rule, or one for this variant, stands before it")
        owner.variants[-1].rule = words.rest

    def check_whole(self, found):
        """What a type lacks, of which each row is good."""
        if found.is_broken:
            return
        if found.kind in ("choice", "group") or found.is_enumeration:
            if not found.variants:
                raise Bad(f"'{found.name}' has no variant")
            for variant in found.variants if found.kind == "choice" else []:
                if not variant.rule:
                    self.line = variant.line
                    raise Bad(f"the variant '{variant.name}' has no rule")
                self.check_rule(found, variant)
            if found.kind == "choice" and not found.rule_tag and not found.is_by_types:
                raise Bad(f"the rules of '{found.name}' are not on one tag, no two of one text, nor each on the type of its variant's item")
        elif not found.given:
            raise Bad(f"'{found.name}' has no part beside constants")
        elif found.parts[-1].is_constant:
            self.line = found.parts[-1].line
            raise Bad("a constant isn't the last part")
        else:
            self.check_decided(found)

    def check_decided(self, found):
        """Each choice by a text has the part that decides, and a structure has one such choice, or one row `one_of`."""
        for part in found.parts:
            if part.is_chosen and not found.decider_of(part):
                self.line = part.line
                raise Bad(f"no one part before '{part.name}' decides its rules: an Enumeration, or a text that is always there, with the tag {part.type.rule_tag}")
        if sum(part.is_chosen for part in found.parts) + len(found.one_ofs) > 1:
            raise Bad(f"'{found.name}' has more than one part that a rule or a row 'one_of' chooses, which is not written yet")
        if found.keeps_rest and (found.one_ofs or any(part.is_chosen for part in found.parts)):
            raise Bad(f"'{found.name}' keeps what follows its parts, and has one that a rule or a row 'one_of' chooses, which is not written yet")
        repeated = [part for place, part in enumerate(found.parts) if part.tag in [other.tag for other in found.parts[:place]]]
        if repeated:
            self.line = repeated[0].line
            raise Bad(f"'{repeated[0].name}' has the tag of another part")

    def check_rule(self, found, variant):
        """A rule that asks an Enumeration of the table for a text that is no number of it never holds."""
        self.line = variant.line
        if not variant.rule_parts and not variant.chosen_type:
            raise Bad(f"the rule of '{variant.name}' isn't '==' or 'in' on texts, or '==' on a type")
        tag, texts = variant.rule_parts or ("", [])
        listed = [it for it in self.table.types if it.is_enumeration and it.own_tag == tag]
        found.is_by_listed |= bool(listed) and not any(it.is_open for it in listed)
        for text in texts if listed else []:
            if not any(re.fullmatch("0x[0-9A-F]{8}", text) and (it.is_open or text[2:] in [row.number for row in it.variants]) for it in listed):
                raise Bad(f"'{text}' is no number of '{listed[0].name}', by which the rule of '{variant.name}' goes: 0x and eight digits")
        self.line = found.line

    def check_names(self):
        """Refuses types of which the written files would have a name twice."""
        owners = dict.fromkeys(TYPE_NAMES, "the library")
        for found in self.table.types:
            self.line = found.line
            cited = [one.type for one in found.parts + found.variants if one.type]
            if not found.is_broken and not any(one.is_broken for one in cited):
                self.attempt(self.take_names, found, owners)

    def take_names(self, found, owners):
        names = self.names_of(found)
        for place, name in enumerate(names):
            if name in owners or name in names[:place]:
                raise Bad(f"'{name}' would be a name of '{found.name}' and of {owners.get(name, 'another thing')} in written files")
        owners.update(dict.fromkeys(names, f"'{found.name}'"))
