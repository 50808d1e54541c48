"""Writes the files of message types, which are lists of their parts, by kmip_ttlv_kinds."""

import re

from tables import REST, RUST_NAMES, snake

CLAIM = "Written by codegen from types.table: change that, and run codegen/codegen."

GHOST_NAMES = {
    "Rattle.std.specs.Prelude": "◌≡◌ ◌↔◌ ◌+◌ None IfSome IsTrue Some codes false refl string_bytes true",
    "Rattle.std.proofs.Common": "ap",
    "Rattle.std.specs.Option": "IsSomeAnd",
    "denote.Enum.Bare": "true_same",
    "Rattle.kmip_ttlv_parts.specs.Digits": "tag_text",
    "Rattle.kmip_ttlv_parts.specs.Returns": "IsNoneOf text_of_number",
    "Rattle.kmip_ttlv_parts.specs.Values": "unit_variant_value",
    "Rattle.kmip_ttlv_kinds.specs.Parts": "IsApart all_enough keeping_structure structure structure_where",
    "Rattle.kmip_ttlv_kinds.specs.Choices": "held held_choice numbered_where texted_where",
    "Rattle.kmip_ttlv_parts.specs.MessageParts": "there",
}

SPEC_NAMES = {
    "Rattle.std.proofs.Common": "ap refl true ◌∙◌",
    "Rattle.std.proofs.Math.Logic": "⊎_elim",
    "Rattle.std.specs.Option": "IsSomeAnd",
    "Rattle.std.specs.Prelude": "IfSome IsTrue List None Option Some codes false ℕ ◌+◌ ◌≡◌ ◌↔◌ ◌⊎◌ [] ◌∷◌",
    "Rattle.std.specs.Str": "chars trim_end trim_start",
    "lib.Utf8": "encode",
    "Rattle.kmip_ttlv_kinds.specs.Choices": "Case ChoiceOf Held HeldChoice Meaning TypedCase as_choice as_item case_of case_within choice_by choice_by_type typed_case",
    "Rattle.kmip_ttlv_parts.proofs.Equal": "apart in_variant",
    "Rattle.kmip_ttlv_parts.proofs.ChoiceTexts": "BeginsBy chosen_by_others chosen_by_text is_there",
    "Rattle.kmip_ttlv_parts.specs.RuleParts": "parts_of",
    "Rattle.kmip_ttlv_parts.specs.Forms": "Variants enum no_variants variant wrapped",
    "Rattle.kmip_ttlv_parts.specs.MessageParts": "there",
    "Rattle.kmip_ttlv_parts.specs.Names": "number tag_of",
    "Rattle.kmip_ttlv_parts.specs.Returns": "IsNoneOf text_of_number",
    "Rattle.kmip_ttlv_parts.specs.Rules": "at_least chosen choice equal in_brackets member past rule sides",
    "Rattle.kmip_ttlv_parts.specs.TagValues": "TagValue last",
}


LISTED_NAMES = {
    "Rattle.kmip_ttlv_parts.proofs.Equal": "found_same row_of",
    "Rattle.kmip_ttlv_parts.proofs.MessageParts": "IsUnit",
    "Rattle.kmip_ttlv_parts.specs.Rules": "rule",
    "Rattle.kmip_ttlv_parts.specs.Names": "number",
    "Rattle.kmip_ttlv_parts.specs.Forms": "Variants no_variants unit variant",
    "Rattle.std.specs.Prelude": "List Some codes refl ℕ [] ◌∷◌ ◌≡◌",
}


def named(text, names):
    """Which of these names a text has, by their modules."""
    text = re.sub(r'"[^"]*"|^ *(--|//).*', "", text, flags=re.MULTILINE)
    found = {}
    for module, words in names.items():
        has = [word for word in words.split() if re.search(pattern_of(word), text)]
        if has:
            found[module] = has
    return found


def pattern_of(word):
    bare = word.strip("◌")
    return rf"(?<![\w.:$-]){re.escape(bare)}(?!\w)" if re.match(r"\w", bare) else rf"(?<=\s){re.escape(bare)}(?=\s)|\({re.escape(bare)}" if bare != "[]" else r"\[\]"


def brackets(items):
    """Terms of definitions nested to the right: each but the last with a bracket behind it."""
    return "(" + ", (".join(items) + ")" * len(items)


def has_a(rust):
    return bool(re.search(r"\bA\b", rust))


def names_of(t):
    """The names that the written files have of a type."""
    names = [t.name, *(one.relation for one in t.one_ofs)]
    if t.kind in ("choice", "group") or t.is_enumeration:
        names.append(t.snake)
    if t.kind in ("structure", "message", "wrapper"):
        names += [f"{t.name}{order}" for order, _ in zip(ORDER, Kinds(t).chunks) if len(t.parts) > 4 - t.keeps_rest] + [f"{t.name}Parts"]
    listed = [t.name] if t.kind == "enumeration" else [part.constant for part in t.parts if part.is_constant]
    listed += [v.constant for v in t.variants if t.kind == "choice" and v.number]
    names += [name for name in listed if name != t.name] + [snake(name) for name in listed if name != t.name]
    for name in map(snake, listed):
        names += [name.upper(), *(f"{name}_{word}" for word in ("variants", "number", "is_unit", "rows", "found", "same", "contract"))]
    if t.kind == "choice":
        names += [f"{t.name}{word}" for word in ("Cases", "Items")] + [f"{t.snake}_{word}" for word in ("variants", "cases", "case", "by", "same", "choice")]
        names += [f"{t.snake}_chosen_by"] if t.is_by_numbers else [f"Chooses{t.name}"] if t.rule_tag else []
        names += [f"{t.snake}_typ"] if t.has_heads else []
        names += [f"{t.snake}_names", f"{t.screaming}_NAMES", f"is_no_{t.snake}"] if t.is_mixed else []
        names += [f"{t.snake}_texts", f"{t.snake}_begins"] if t.rule_tag else []
        names += [f"{t.screaming}_RULES"]
    return names


class Kinds:
    """How a structure of a table is written by the kinds of its parts."""

    def __init__(self, t):
        self.t = t

    @staticmethod
    def a(t):
        return "<A>" if t.owns else ""

    @staticmethod
    def only(part):
        """The value of a constant, in Rust."""
        return f"{part.constant}::Only"

    @classmethod
    def once(cls, part):
        """The type in Rust of one of a part."""
        if part.leaf:
            return part.leaf.rust
        if part.type.kind == "wrapper":
            return cls.inner(part.type)
        name = f"{part.type.name}{cls.a(part.type)}"
        return f"Boxed<{name}, A>" if part.is_boxed else name

    @classmethod
    def inner(cls, t):
        """What is in a wrapper, in Rust."""
        return cls.rust(t.given[0])

    @classmethod
    def rust(cls, part):
        return {"one": "{}", "optional": "Option<{}>", "several": "Vec<{}, A>", "any": "Vec<{}, A>"}[part.count].format(cls.once(part))

    @classmethod
    def element(cls, part):
        if part.leaf:
            return f"LeafItem<{part.leaf.rust}, 0x{part.tag}>"
        if part.is_constant:
            return f"ListedItem<{part.constant}>"
        if part.type.is_open:
            return part.type.name
        if part.type.is_enumeration:
            return f"ListedItem<{part.type.name}>"
        element = cls.structure(part.type, part.tag)
        return f"InBox<{element}>" if part.is_boxed else element

    @classmethod
    def structure(cls, t, tag):
        """A structure as an element; a wrapper by what is in it."""
        name = f"{t.name}{cls.a(t)}"
        return f"Inside<{name}, {cls.inner(t)}, 0x{tag}>" if t.kind == "wrapper" else f"Of<{name}, 0x{tag}>"

    @classmethod
    def kind(cls, part):
        if part.type and part.type.kind == "choice":
            return f"{'OneOf' if part.count == 'one' else 'MaybeOneOf'}<{cls.once(part)}, 0x{part.tag}>"
        if part.leaf and part.count in ("one", "optional"):
            return f"{'Leaf' if part.count == 'one' else 'MaybeLeaf'}<{part.leaf.rust}, 0x{part.tag}>"
        if part.count == "one":
            return f"One<{cls.element(part)}>"
        return f"{ {'optional': 'Maybe', 'several': 'Several', 'any': 'Any'}[part.count]}<{cls.element(part)}, 0x{part.tag}>"

    @property
    def lists(self):
        """The lists of its parts by their names, four parts in each, and the whole list, which comes last."""
        chunks, whole = self.chunks, f"{self.t.name}Parts"
        if len(chunks) == 1 and (len(chunks[0]) < 4 or not self.t.keeps_rest):
            return {whole: self.behind(chunks[0])}
        found = {f"{self.t.name}{order}": self.tuple(chunk) if len(chunk) == 4 else self.behind(chunk) for order, chunk in zip(ORDER, chunks)}
        firsts = [name + ("<A>" if has_a(listed) else "") for name, listed in found.items()]
        behind = "Rest" if self.t.keeps_rest and len(chunks[-1]) == 4 else firsts.pop()
        for first in reversed(firsts):
            behind = f"Four<{first}, {behind}>"
        return {**found, whole: behind}

    def behind(self, parts):
        """The list that ends with these."""
        if not self.t.keeps_rest:
            return self.tuple(parts)
        listed = "Rest"
        for part in reversed(parts):
            listed = f"Before<{self.kind(part)}, {listed}>"
        return listed

    def tuple(self, parts):
        kinds = [self.kind(part) for part in parts]
        return f"({', '.join(kinds)})" if len(kinds) > 1 else f"Alone<{kinds[0]}>"

    def held(self, names):
        """What the list holds, by names: in tuples."""
        if len(names) > 4:
            return f"({', '.join(names[:4])}, {self.held(names[4:])})"
        if self.t.keeps_rest and len(names) > 1:
            return f"({names[0]}, {self.held(names[1:])})"
        return f"({', '.join(names)})" if len(names) > 1 else names[0]

    @property
    def record(self):
        """The same of x, in definitions."""
        names = [f"{snake(part.constant)}.Only" if part.is_constant else f"x.{part.name}" for part in self.t.parts]
        return self.held(names + [f"x.{REST}"] * self.t.keeps_rest)

    @property
    def chunks(self):
        parts = self.t.parts
        return [parts[at : at + 4] for at in range(0, len(parts), 4)]

    @property
    def told(self):
        """The parts that a walk is told of at a time: of fewer than four before what is kept one by one."""
        return [one for chunk in self.chunks for one in ([[part] for part in chunk] if self.t.keeps_rest and len(chunk) < 4 else [chunk])]


# Numbers with a sign, of which a proof has to find that their bits are those of a number that fits.
SIGNED = ("i32", "i64")

COUNT = {1: "one", 2: "two", 3: "three", 4: "four"}
ORDER = ["First", "Second", "Third", "Fourth", "Fifth"]


# What isn't told where telling four parts fails.
NOT_TOLD_USES = [
    "use Rattle.std.proofs.Common.{◌≡◌, Err, Result, subst, sym}",
    "use Rattle.std.specs.Prelude.{OnOk}",
    "use Rattle.std.proofs.lemmas.Result.{err_from_is_err_and}",
]
NOT_TOLD = """
-- of an error nothing is told
not_told : {T E : Type 0} (P : Type 0) (r : Result T E) (e : E) → r ≡ Err e → OnOk r P
not_told P r e is = subst (λ x. OnOk x P) (sym is) tt
"""


class Writer:
    """The files of a table."""

    def __init__(self, table):
        self.table = table

    # ---- what is written

    def files(self):
        files = {f"src/{module.name}.rt": self.code(module) for module in self.table.own_modules}
        if self.definitions_of():
            files["specs/Choices.antt"] = self.definitions()
        if self.listings():
            files["specs/Listed.antt"] = self.listed_definitions()
        for t in self.table.types:
            folder = f"proofs/{t.module.name}" if t.module.is_own else ""
            if folder and t.kind == "choice":
                files[f"{folder}/{self.impl_of(t, 'Choice')}/tell_held/Answers.antt"] = self.held_told(t)
                files[f"{folder}/{self.impl_of(t, 'Choice')}/read_held/Answers.antt"] = self.held_read(t)
            if folder and t.kind in ("structure", "message") and (t.choices or t.one_ofs or t.keeps_rest or len(t.parts) > 4):
                files[f"{folder}/{self.impl_of(t, 'Structure')}/tell_parts/Answers.antt"] = self.parts_told(t)
        return {path: f"{'//' if path.endswith('.rt') else '--'} {CLAIM}\n{text}" for path, text in files.items()}

    def own_files(self):
        own = {"src/lib.rt": "//! The message types of `types.table`.\n#![tactic(auto)]\n\n" + "".join(f"pub mod {m.name};\n" for m in self.table.own_modules)}
        modules = [name for name, is_there in (("Choices", self.definitions_of()), ("Listed", self.listings())) if is_there]
        if modules:
            own["specs/Lib.antt"] = "".join(f"pub mod {name}\n" for name in modules)
        if any(path.startswith("proofs/") for path in self.files()):
            own["proofs/Lib.antt"] = "-- The answers of this crate's functions.\n"
        return own

    def definitions_of(self):
        own = [t for t in self.table.types if t.module.is_own]
        return [t for t in own if t.kind == "choice" or t.one_ofs]

    def listings(self):
        """The closed Enumerations and the constants of this crate: the name of each, its module, its tag, and its values with their numbers."""
        found = []
        for t in self.table.types:
            if t.module.is_own and t.kind == "enumeration":
                found.append((t.name, t.module, t.tag, [(v.name, v.number) for v in t.variants]))
            constants = [part for part in t.parts if part.is_constant] + [v for v in t.variants if t.kind == "choice" and v.number]
            found += [(one.constant, t.module, one.tag, [("Only", one.number)]) for one in constants if t.module.is_own]
        return found

    def listed_definitions(self):
        """Of each Enumeration of listed numbers its variants, the number of each value, and that these are units of it, one for each value."""
        lines = ["-- The numbers of Enumerations of listed numbers, and of constants."]
        body = ""
        for name, module, tag, rows in self.listings():
            called = snake(name)
            path = f"Rattle.{self.table.crate}.specs.declared.{module.name}.{name}"
            lines += [f"use {path}.{{{name}}}", f"use {path}.TheVariants as {called}"]
            variants = " (\n    ".join(f'variant (codes "0x{number}") unit' for _, number in rows) + " no_variants" + ")" * (len(rows) - 1)
            numbers = "".join(f'{called}_number {called}.{variant} = codes "0x{number}"\n' for variant, number in rows)
            units = "".join(
                f"{called}_is_unit {called}.{variant} = record {{ n = 0x{number}; numbered = refl; text = refl; units = λ k. record {{ no_rule = refl; named = refl }} }}\n"
                for variant, number in rows
            )
            table = "".join(f'    (codes "0x{number}", {called}.{variant}) ∷\n' for variant, number in rows)
            found = "".join(f"{called}_found {called}.{variant} = refl\n" for variant, _ in rows)
            body += (
                f"\n-- the numbers of `{name}`\nabbrev pub {called}_variants : Variants\n{called}_variants =\n    {variants}\n"
                f"\n-- the number of each\nabbrev pub {called}_number : {name} → List ℕ\n{numbers}"
                f"\npub {called}_is_unit : (x : {name}) → IsUnit {called}_variants ({called}_number x)\nunfolding number rule\n{units}"
            )
            if len(rows) > 1:
                body += (
                    f"\nabbrev {called}_rows : List (List ℕ × {name})\n{called}_rows =\n{table}    []\n"
                    f"\n{called}_found : (x : {name}) → row_of ({called}_number x) {called}_rows ≡ Some x\n{found}"
                    f"\npub {called}_same : (x y : {name}) → {called}_number x ≡ {called}_number y → x ≡ y\n{called}_same x y e = found_same {called}_number {called}_rows {called}_found x y e\n"
                )
        for module, names in named(body, LISTED_NAMES).items():
            lines.insert(1, f"use {module}.{{{', '.join(names)}}}")
        return "\n".join(lines) + "\n" + body

    # ---- code

    def code(self, module):
        types = self.table.types_of(module)
        body = "".join(getattr(self, t.kind if t.kind not in ("message", "wrapper") else "structure")(t) for t in types)
        ghosts = "\n".join(re.findall(r"(?:ghost \w+ = \{.*?\};|ensures .*|requires .*)", body, flags=re.DOTALL))
        lines = [f"//! {module.doc}", ""]
        for path, names in named(ghosts, GHOST_NAMES).items():
            lines.append(f"ghost use {path}.{{{', '.join(names)}}};")
        specs = {}
        for t in self.table.types:
            if t.kind == "choice" or t.one_ofs:
                names = [name for name in self.names_of(t) if re.search(rf"\b{name}\b", ghosts)]
                if names:
                    specs.setdefault(self.crate(t), []).extend(names)
        lines += [f"ghost use Rattle.{crate}.specs.Choices.{{{', '.join(names)}}};" for crate, names in specs.items()]
        for name, home, _, rows in self.listings():
            called, path = snake(name), f"{self.table.crate}.specs"
            if home is module:
                cited = [f"{called}_is_unit", f"{called}_number"] + [f"{called}_same"] * (len(rows) > 1) + [f"{called}_variants"]
                lines.append(f"ghost use Rattle.{path}.Listed.{{{', '.join(cited)}}};")
                more = [f"contracts.{home.name}.{name} as {called}_contract"] if len(rows) > 1 else [f"declared.{home.name}.{name}.TheVariants as {called}"]
                lines += [f"ghost use Rattle.{path}.{word};" for word in more]
            elif re.search(rf"\b{called}_number\b", ghosts):
                lines.append(f"ghost use Rattle.{path}.Listed.{{{called}_number}};")
        lines.append("")
        uses = named(re.sub(r"ghost (use )?[^;]*;", "", body, flags=re.DOTALL), RUST_NAMES)
        for path, names in named("\n".join(re.findall(r"⟦<(.*?)>⟧", body, flags=re.DOTALL)), RUST_NAMES).items():
            uses[path] = [*uses.get(path, []), *(name for name in names if name not in uses.get(path, []))]
        for t in self.table.types:
            if t not in types and re.search(rf"\b{t.name}\b", body):
                uses.setdefault(f"{'crate' if t.module.is_own else t.module.crate}::{t.module.name}", []).append(t.name)
        if any(t.kind == "message" for t in types):
            uses = {path.replace("kmip_ttlv_parts::", "kmip_ttlv::") if path.endswith(("laws", "shape")) else path: names for path, names in uses.items()}
        for path, names in sorted(uses.items()):
            lines.append(f"use {path}::{names[0]};" if len(names) == 1 else f"use {path}::{{{', '.join(sorted(names))}}};")
        text = "\n".join(lines) + "\n" + body.rstrip() + "\n"
        return text

    def crate(self, t):
        return t.module.crate or self.table.crate

    def names_of(self, t):
        names = [one.relation for one in t.one_ofs]
        if t.kind == "choice":
            names += [f"{t.snake}_choice", f"Chooses{t.name}", f"{t.snake}_chosen_by", f"{t.snake}_names"]
        return names

    def open(self, t):
        rows = "".join(f"    /// {v.doc}\n    pub const {snake(v.name).upper()}: {t.name} = {t.name} {{ number: 0x{v.number} }};\n" for v in t.variants)
        return (
            f"\n/// {t.doc}\npub type {t.name} = Enumeration<0x{t.tag}>;\n\n/// The numbers of `{t.name}` that have a name.\npub mod {t.snake} {{\n"
            f"    use super::{t.name};\n\n{rows}}}\n"
        )

    def enumeration(self, t):
        return self.listed(t.name, t.doc, t.tag, [(v.name, v.number, v.doc) for v in t.variants], False)

    def listed(self, name, doc, tag, rows, is_constant):
        """A closed Enumeration: the type, the table of its numbers, and how it is an element. Of a constant all values are equal."""
        called, table = snake(name), snake(name).upper()
        variants = "".join(f"    /// {doc}\n    {variant},\n" for variant, _, doc in rows)
        numbers = ", ".join(f'("0x{number}", {name}::{variant})' for variant, number, _ in rows)
        arms = "".join(f'            {name}::{variant} => "0x{number}",\n' for variant, number, _ in rows)
        equal = "λ x y. true" if is_constant else f"⟦<{name} as PartialEq>⟧.eq"
        same = "λ x y e. refl" if is_constant else f"λ x y e. true_same {called}_contract.the_type x y ({called}_same x y e)"
        return (
            f"\n/// {doc}\n#[derive(Clone, Copy, {'' if is_constant else 'Debug, '}PartialEq, Eq)]\npub enum {name} {{\n{variants}}}\n"
            f"\n// Each number, and what it stands for.\nconst {table}: [(&str, {name}); {len(rows)}] = [{numbers}];\n"
            f"\nimpl Listed for {name} {{\n    ghost tag = {{ 0x{tag} }};\n\n    ghost variants = {{ {called}_variants }};\n\n"
            f"    ghost rules = {{ record {{\n      number = {called}_number;\n      units = {called}_is_unit;\n      eq = {equal};\n      same = {same};\n    }} }};\n\n"
            f"    fn table() -> &'static [(&'static str, Self)] {{\n        &{table}\n    }}\n\n"
            f"    fn tag() -> u32 {{\n        0x{tag}\n    }}\n\n    #[tactic(auto, unfolding(kmip_ttlv_types::specs::Digits::six_digits))]\n    fn name() -> &'static str {{\n        \"0x{tag}\"\n    }}\n\n"
            f"    fn number_text(self) -> &'static str {{\n        match self {{\n{arms}        }}\n    }}\n}}\n"
        )

    def declared(self, t):
        derives = "#[derive(Drop)]\n#[derive_where(PartialEq)]" if t.owns else "#[derive(Clone, Copy, PartialEq, Eq)]"
        return f"\n/// {t.doc}\n{derives}\npub {'enum' if t.kind == 'choice' else 'struct'} {t.name}{'<A: Allocator = Global>' if t.owns else ''} {{\n"

    def structure(self, t):
        k, a = Kinds(t), Kinds.a(t)
        constants = [part for part in t.parts if part.is_constant]
        text = self.declared(t) + "".join(f"    /// {part.doc}\n    pub {part.name}: {k.rust(part)},\n" for part in t.parts if part not in constants)
        text += f"    /// What stands behind these, whatever it is.\n    pub {REST}: Kept<A>,\n}}\n" if t.keeps_rest else "}\n"
        for part in constants:
            text += self.listed(part.constant, f"What `{part.name}` of a `{t.name}` always is.", part.tag, [("Only", part.number, "The number.")], True)
        for one in t.one_ofs:
            text += self.one_of(t, one)
        lists = k.lists
        *_, whole = lists
        parts = f"{whole}{'<A>' if any(has_a(listed) for listed in lists.values()) else ''}"
        text += self.kept_apart(t, parts) if t.keeps_rest else self.decision(t)
        for name, listed in lists.items():
            text += f"\ntype {name}{'<A>' if has_a(listed) else ''} = {listed};\n"
        closed = "true" if t.denies else "false"
        decides, needed = self.decides(t)
        rest = [REST] * t.keeps_rest
        held, names = k.held(["_" if part in constants else part.name for part in t.parts] + rest), ", ".join([part.name for part in t.parts if part not in constants] + rest)
        rules = f"{'keeping_structure' if t.keeps_rest else f'structure_where {closed}' if decides else f'structure {closed}'} ⟦<{parts} as PartList<A>>⟧.rules ⟦<{t.name}{a} as FromParts<A, {parts}>>⟧.parts refl"
        rules += f"\n        (λ x. {decides}) (λ x d. {needed})" if decides else ""
        return text + (
            f"\nimpl<A: Allocator + Copy> FromParts<A, {parts}> for {t.name}{a} {{\n    ghost parts = {{ λ x. {k.record} }};\n\n"
            f"    fn from_parts({held}: Holds<{parts}, A>) -> Self {{\n        {t.name} {{ {names} }}\n    }}\n}}\n"
            f"\nimpl<A: Allocator + Copy> Structure<A> for {t.name}{a} {{\n"
            f"    ghost rules = {{ {rules} ⟦<{t.name}{a} as PartialEq>⟧.eq (λ x y e. e) }};\n\n"
            f"    fn read<'b>(scope: &Scope<'b, A>, tag: u32, cursor: &mut Cursor<'b, A>) -> Step<Self, A> {{\n"
            f"        read_structure::<{parts}, Self, A>(scope, tag, {closed}, cursor)\n    }}\n\n"
            f"    fn tell_parts<W: Walk<A>>(&self, state: &mut W::State) -> Result<(), AllocError> {{\n{self.telling(t, k)}    }}\n}}\n"
        ) + (self.message(t, parts, closed) if t.kind == "message" else self.wrapper(t, k) if t.kind == "wrapper" else "")

    def wrapper(self, t, k):
        """How a type may hold what is in it, without it."""
        inner, name = k.inner(t), t.given[0].name
        return (
            f"\nimpl<A: Allocator + Copy> Wrapper<{inner}, A> for {t.name}{k.a(t)} {{\n    ghost wrap = {{ λ x. record {{ {name} = x }} }};\n\n"
            f"    fn into_inner(self) -> {inner} {{\n        self.{name}\n    }}\n\n"
            f"    fn tell_inner<W: Walk<A>>(inner: &{inner}, state: &mut W::State) -> Result<(), AllocError> {{\n{self.telling(t, k, 'inner')}    }}\n}}\n"
        )

    def telling(self, t, k, inner=""):
        """The lines that tell a walk of its parts, and what is decided of them."""
        if t.kind == "wrapper" and not inner:
            return f"        Self::tell_inner::<W>(&self.{t.given[0].name}, state)\n"
        calls = []
        for chunk in k.told:
            kinds, lent = ", ".join(k.kind(part) for part in chunk), ", ".join(inner if inner and part is t.given[0] else f"&{k.only(part) if part.kind == 'constant' else f'self.{part.name}'}" for part in chunk)
            calls.append(f"W::{COUNT[len(chunk)]}::<{kinds}>(state, {lent})")
        calls += [f"W::kept(state, &self.{REST})"] * t.keeps_rest
        decides = bool(t.choices or t.one_ofs or t.keeps_rest)
        if len(calls) == 1 and not decides:
            return f"        {calls[0]}\n"
        lines = [f"{call}?;" for call in calls] + (["W::check(state, self);"] if decides else []) + ["Ok(())"]
        return "".join(f"        {line}\n" for line in lines)

    # ---- what a rule decides

    def decides(self, t):
        """What a structure has to be beside its parts, so that its rules choose what it holds, and the proof that these need no more."""
        choices = {found.part: found for found in t.choices}
        says, needs = [], []
        for part in t.parts:
            found = choices.get(part)
            if not found:
                needs.append(None)
                continue
            says.append(self.relation(found))
            needs.append(found)
        says += [f"({one.is_one})" for one in t.one_ofs]
        if not says:
            return "", ""
        return " × ".join(says), self.needed(t, needs, says)

    def decision(self, t):
        """How it is decided that the rules choose what is there, or that one of a group is."""
        says = [self.relation(found) for found in t.choices] + [f"({one.is_one})" for one in t.one_ofs]
        if not says:
            return ""
        (lines,) = [found.body for found in t.choices] + [[f"self.{one.name}().is_some()"] for one in t.one_ofs]
        return (
            f"\nimpl{'<A: Allocator>' if t.owns else ''} Decided for {t.name}{Kinds.a(t)} {{\n    ghost IsDecided = {{ λ x. {says[0]} }};\n\n"
            f"    fn is_decided(&self) -> bool {{\n{''.join(f'        {line}{chr(10)}' for line in lines)}    }}\n}}\n"
        )

    def kept_apart(self, t, parts):
        """How it is decided that what is kept behind its parts begins with none of their tags."""
        a = Kinds.a(t)
        lists = f"⟦<{parts} as PartList<A>>⟧.rules ⟦<{t.name}{a} as FromParts<A, {parts}>>⟧.parts"
        return (
            f"\nimpl<A: Allocator + Copy> Decided for {t.name}{a} {{\n    ghost IsDecided = {{ λ x. IsApart {lists} x }};\n\n"
            f"    fn is_decided(&self) -> bool {{\n        is_apart::<{parts}, A>(&self.{REST})\n    }}\n}}\n"
        )

    def relation(self, found):
        part, decider = found.part, found.decider
        if part.type.is_by_numbers:
            chosen = lambda z, y: f"{z}.number ≡ {part.type.snake}_chosen_by {y}"
        else:
            chosen = lambda z, y: f"Chooses{part.type.name} {decider.said(z)} {y}"
        if part.count == "one" and decider.count == "one":
            return f"({chosen(f'x.{decider.name}', f'x.{part.name}')})"
        inner = f"IsSomeAnd x.{decider.name} (λ z. {chosen('z', 'y')})" if decider.count == "optional" else chosen(f"x.{decider.name}", "y")
        return f"IfSome x.{part.name} (λ y. {inner})"

    def needed(self, t, needs, says):
        """A proof for each part, as its list nests them."""
        place, terms = 0, []
        for part, found in zip(t.parts, needs):
            if not found:
                is_typed = part.type and part.type.kind == "choice" and part.count == "optional"
                terms.append(f"all_enough x.{part.name} (λ y. tt)" if is_typed else "tt")
                continue
            known = "d" if len(says) == 1 else f"d.{place}"
            place += 1
            if not found.part.type.is_by_numbers:
                is_maybe = found.decider.count == "optional"
                terms.append(f"texted_where Chooses{found.part.type.name} x.{found.decider.name} x.{found.part.name} {known}" if is_maybe else known)
            elif found.part.count == "one" and found.decider.count == "one":
                terms.append(f"ap text_of_number {known}")
            else:
                terms.append(f"numbered_where {found.part.type.snake}_chosen_by x.{found.decider.name} x.{found.part.name} {known}")
        return brackets(terms)

    def message(self, t, parts, closed):
        a, bound, any_a = Kinds.a(t), "<A: Allocator + Copy>", "A" if t.owns else "Global"
        item = lambda alloc: f"⟦<Of<{t.name}{a}, 0x{t.tag}> as Element<{alloc}>>⟧"
        own = bound if t.owns else ""
        return (
            f"\nimpl{own} Serialize for {t.name}{a} {{\n    ghost stated = {{ {item(any_a)}.rules.written }};\n\n"
            f"    fn visit<V: Visitor>(&self, visitor: &mut V) -> Result<(), AllocError> {{\n"
            f"        {'visit_structure' if t.owns else f'visit_structure::<{t.name}, V, Global>'}(self, 0x{t.tag}, visitor)\n    }}\n}}\n"
            f"\nimpl{bound} Decode<A> for {t.name}{a} {{\n    ghost form = {{ {item('A')}.form }};\n\n"
            f"    ghost is_value = {{ λ v x. v ≡ {item('A')}.value x }};\n\n"
            f"    fn decode(alloc: A, bytes: &[u8]) -> Result<Self, Error<A>> {{\n        decode_structure::<{parts}, Self, A>(alloc, 0x{t.tag}, {closed}, bytes)\n    }}\n}}\n"
            f"\nimpl{own} Sound for {t.name}{a} {{\n    ghost IsSound = {{ {item(any_a)}.rules.IsSound }};\n\n"
            f"    fn is_sound(&self) -> bool {{\n        {'is_structure_whole' if t.owns else f'is_structure_whole::<{t.name}, Global>'}(self)\n    }}\n}}\n"
            f"\nimpl{bound} Message<A> for {t.name}{a} {{\n    fn comes_back() {{\n        structures_come_back::<{t.name}{a}, 0x{t.tag}, A>();\n    }}\n}}\n"
        )

    # ---- groups

    def group(self, t):
        a = ", A: Allocator = Global" if t.owns else ""
        rows = "".join(f"    /// {v.doc}\n    {v.name}(&'a {v.type.name}{Kinds.a(v.type)}),\n" for v in t.variants)
        return f"\n/// {t.doc}\n#[derive(Drop)]\npub enum {t.name}<'a{a}> {{\n{rows}}}\n"

    def one_of(self, t, one):
        lent = ", ".join(f"&self.{part.name}" for part in one.parts)
        arms = "".join(f"            {one.pattern(place)} => Some({one.group.name}::{v.name}({one.lent(place)})),\n" for place, v in enumerate(one.group.variants))
        a, bound = Kinds.a(t), "<A: Allocator>" if t.owns else ""
        return (
            f"\nimpl{bound} {t.name}{a} {{\n    /// {one.doc} None if none is there, or more than one.\n"
            f"    pub fn {one.name}(&self) -> Option<{one.group.name}<'_{', A' if one.group.owns else ''}>>\n"
            f"        ensures {{ {one.relation} self.now result }}\n    {{\n        match ({lent}) {{\n{arms}            _ => None,\n        }}\n    }}\n}}\n"
        )

    # ---- choices

    def element(self, t, variant):
        """The element that a variant holds, in kmip_ttlv_kinds; of a choice the choice itself."""
        if variant.number:
            return f"ListedItem<{variant.constant}>"
        if variant.leaf:
            return f"LeafItem<{variant.leaf.rust}, 0x{t.tag}>"
        inner = f"{variant.type.name}{Kinds.a(variant.type)}"
        if variant.type.kind == "choice":
            return inner
        if variant.type.is_open:
            return inner if variant.type.tag == t.tag else f"Under<{inner}, 0x{t.tag}>"
        element = Kinds.structure(variant.type, t.tag)
        return f"InBox<{element}>" if variant.is_boxed else element

    def inside(self, variant):
        if variant.number:
            return variant.constant
        if variant.wrapper:
            return Kinds.inner(variant.type)
        inner = variant.leaf.rust if variant.leaf else f"{variant.type.name}{Kinds.a(variant.type)}"
        return f"Boxed<{inner}, A>" if variant.is_boxed else inner

    def choice(self, t):
        a, bound = Kinds.a(t), "<A: Allocator>" if t.owns else ""
        text = self.declared(t) + "".join(f"    /// {v.doc}\n    {v.name}{'' if v.number else f'({self.inside(v)})'},\n" for v in t.variants) + "}\n"
        for v in t.variants:
            if v.number:
                text += self.listed(v.constant, f"What `{t.name}::{v.name}` is encoded as.", t.tag, [("Only", v.number, "The number.")], True)
        text += self.tests(t, a, bound)
        items = []
        for v in t.variants:
            element = self.element(t, v)
            if v.inner:
                items.append(f"{snake(v.name)} = held_choice ⟦<{element} as Choice<A>>⟧.chosen refl (λ x. refl) (λ x said c. c) (λ x y e. e)")
            else:
                items.append(f"{snake(v.name)} = held ⟦<{element} as Element<A>>⟧.rules refl refl (λ x y e. {'refl' if v.number else 'e'})")
        lines = ";\n        ".join(items)
        eq = f"⟦<{t.name}{a} as PartialEq>⟧.eq"
        arms = ""
        for v in t.variants:
            told = "inner.tell_held::<W>(state)" if v.inner else f"W::item::<{self.element(t, v)}>(state, inner)"
            arms += f"            {t.name}::{v.name}{'' if v.number else '(inner)'} => {told.replace('inner', f'&{v.constant}::Only') if v.number else told},\n"
        rules = ", ".join(self.rule(v) for v in t.variants)
        unfolded = ", ".join(f"kmip_ttlv_reader::specs::RuleParts::{word}" for word in ("parts_of", "equal_sides"))
        reading = "".join(f"            {place} => Ok({self.made(t, v)}),\n" for place, v in enumerate(t.variants))
        return text + (
            f"\n// The rules of the variants, in their order.\nconst {t.screaming}_RULES: [RuleParts; {len(t.variants)}] = [{rules}];\n"
            f"\nimpl<A: Allocator + Copy> Choice<A> for {t.name}{a} {{\n    ghost chosen = {{ {t.snake}_choice {eq} record {{\n        {lines};\n      }} }};\n\n"
            f"    #[tactic(auto, unfolding({unfolded}))]\n    fn variant_rules() -> &'static [RuleParts] {{\n        &{t.screaming}_RULES\n    }}\n\n"
            f"    fn read_held<'b>(scope: &Scope<'b, A>, cursor: &mut Cursor<'b, A>, place: usize) -> Step<Self, A> {{\n"
            f"        match place {{\n{reading}            _ => unreachable!(),\n        }}\n    }}\n\n"
            f"    fn tell_held<W: Walk<A>>(&self, state: &mut W::State) -> Result<(), AllocError> {{\n        match self {{\n{arms}        }}\n    }}\n}}\n"
        )

    def rule(self, v):
        """The rule of a variant in parts: by the text of a tag, or else by the type of the item."""
        if not v.rule_parts:
            return f"RuleParts::Type(TtlvType::{v.chosen_type})"
        tag, texts = v.rule_parts
        listed = ", ".join(f'"{text}"' for text in texts)
        return f"RuleParts::Texts {{ tag: 0x{tag}, texts: &[{listed}] }}"

    def made(self, t, v):
        """A variant, of what is read."""
        if v.inner:
            return f"{t.name}::{v.name}(read_choice(scope, cursor)?)"
        read = f"<{self.element(t, v)} as Element<A>>::read_one(scope, cursor)?"
        return f"match {read} {{ {v.constant}::Only => {t.name}::{v.name} }}" if v.number else f"{t.name}::{v.name}({read})"

    def tests(self, t, a, bound):
        """What decides whether a text or a number chooses what is held."""
        if not t.rule_tag:
            return ""
        text = ""
        if t.is_mixed:
            names = ", ".join(f'"{v.rule_parts[1][0]}"' for v in t.named)
            text += (
                f"\n// The texts that choose a variant, whatever the type of its item is.\nconst {t.screaming}_NAMES: [&str; {len(t.named)}] = [{names}];\n"
                f"\n// Whether a text is none of these.\nfn is_no_{t.snake}(text: &str) -> bool\n    ensures {{ IsTrue result ↔ IsNoneOf text.now {t.snake}_names }}\n"
                f"{{\n    is_none_of(text, &{t.screaming}_NAMES)\n}}\n"
            )
        if t.is_by_numbers:
            rows = "".join(f"            {t.name}::{v.name}(_) => {v.rule_parts[1][0]},\n" for v in t.variants)
            return (
                f"\nimpl{bound} {t.name}{a} {{\n    /// The number that chooses it, of the Enumeration 0x{t.rule_tag}.\n    pub fn chosen_by(&self) -> u32\n"
                f"        ensures {{ result ≡ {t.snake}_chosen_by self.now }}\n    {{\n        match self {{\n{rows}        }}\n    }}\n}}\n"
            )
        arms = "".join(f"            {t.name}::{v.name}{'' if v.number else '(inner)' if v.inner else '(_)'} => {v.test(t)},\n" for v in t.variants)
        return text + (
            f"\nimpl{bound} {t.name}{a} {{\n    /// Whether this text, if it is that of 0x{t.rule_tag}, chooses it.\n    pub fn is_chosen_by(&self, text: &str) -> bool\n"
            f"        ensures {{ IsTrue result ↔ Chooses{t.name} text.now self.now }}\n    {{\n        match self {{\n{arms}        }}\n    }}\n}}\n"
        )

    # ---- answers

    def impl_of(self, t, trait):
        """What the prover calls the impl of a trait for a type: in full where a type has that name."""
        is_taken = any(other.name == f"{t.name}{trait}" for other in self.table.types)
        return f"{t.name}{'Any' * t.owns}{trait}Any" if is_taken else f"{t.name}{trait}"

    def answers(self, t, trait, function, imports, rows):
        goal = f"Rattle.{self.table.crate}.proofs.{t.module.name}.{self.impl_of(t, trait)}.{function}.Goals"
        return "\n".join(["-- What it answers, by what it holds.", *imports, f"use {goal} as goal"]) + "\n" + rows

    def held_told(self, t):
        rows, met = "", set()
        for v in t.variants:
            name = "tell_held" if v.inner else "item"
            call = f"c.{name}-in-{v.name}" if name in met else f"c.{name}"
            met.add(name)
            rows += (
                f"\npub returns-in-{v.name}-clause-told : goal.returns-in-{v.name}-clause-told\nunfolding {t.snake}_by\n"
                f"returns-in-{v.name}-clause-told g c = told_as ({t.snake}_by _) (λ t. OnOk {call}.result (g.W.Walk.steps.Takes c.args.state.now t {call}.new.state)) c.in-{v.name}.is {call}.ensures.told\n"
            )
        return self.answers(t, "Choice", "tell_held", [
            "use Rattle.std.specs.Prelude.{OnOk}", "use Rattle.kmip_ttlv_kinds.specs.Choices.{told_as}", f"use Rattle.{self.table.crate}.specs.Choices.{{{t.snake}_by}}",
        ], rows)  # fmt: skip

    def held_read(self, t):
        rows, met, several = "", set(), len(t.variants) > 1
        for place, v in enumerate(t.variants):
            name = "read_choice" if v.inner else "read_one"
            at = f"{name}-in-{place}" if several else name
            residual = f"from_residual-in_err-{at}" if place else "from_residual"
            means = "(search rules)" if v.number or v.leaf and v.leaf.rust in SIGNED else "refl"
            rows += (
                f"\npub returns-in_err-{at}-clause-read : goal.returns-in_err-{at}-clause-read\n"
                f"returns-in_err-{at}-clause-read g c =\n    is_failed_at _ _ _ _ _ _ c.in_err-{at}.ensures.read c.{residual}.ensures.1 c.in-{place}.is refl\n"
                f"\npub returns-in_ok-{at}-clause-read : goal.returns-in_ok-{at}-clause-read\nunfolding {t.snake}_by\n"
                f"returns-in_ok-{at}-clause-read g c = is_held_at _ _ _ _ _ c.in_ok-{at}.ensures.read c.in-{place}.is refl {means}\n"
            )
        return self.answers(t, "Choice", "read_held", [
            f"use Rattle.std.proofs.Common.{{refl{', rules' * ('rules' in rows)}}}", "use Rattle.kmip_ttlv_kinds.specs.Choices.{is_failed_at, is_held_at}", f"use Rattle.{self.table.crate}.specs.Choices.{{{t.snake}_by}}",
        ], rows)  # fmt: skip

    def parts_told(self, t):
        counts, calls = {}, []
        for name in [COUNT[len(chunk)] for chunk in Kinds(t).told] + ["kept"] * t.keeps_rest:
            counts[name] = counts.get(name, 0) + 1
            calls.append(f"c.in_ok-{name}{f'-{counts[name]}' if counts[name] > 1 else ''}.ensures.told")
        told = calls[-1]
        for call in reversed(calls[:-1]):
            told = f"(g.W.Walk.steps.behind _ _ _ _ _ {call} {told})"
        if t.choices or t.one_ofs or t.keeps_rest:
            told = f"(g.W.Walk.steps.checked _ _ _ _ _ {told} c.check.ensures)"
        imports, rows = [], ""
        if "four" in counts and any(found.part.type.names_numbers and found.part.type.typed for found in t.choices):
            imports, rows = NOT_TOLD_USES, NOT_TOLD  # which the search doesn't find
            for at, call in enumerate(calls):
                name = call.removeprefix("c.in_ok-").removesuffix(".ensures.told")
                residual = f"c.from_residual-in_err-{name}" if at else "c.from_residual"
                rows += f"\npub returns-in_err-{name}-clause-told : goal.returns-in_err-{name}-clause-told\nreturns-in_err-{name}-clause-told g c =\n"
                rows += f"    let p = err_from_is_err_and {residual}.result {residual}.ensures.1 in\n    not_told _ {residual}.result p.0 p.1\n"
        rows += f"\npub returns-clause-told : goal.returns-clause-told\nreturns-clause-told g c = {told[1:-1]}\n"
        return self.answers(t, "Structure", "tell_parts", imports, rows)

    # ---- definitions

    def definitions(self):
        types = self.definitions_of()
        body = "".join(self.choice_definitions(t) if t.kind == "choice" else "".join(self.relation_of(t, one) for one in t.one_ofs) for t in types)
        lines = ["-- Which rules choose what, and what is there of what may be."]
        for module, names in named(body, SPEC_NAMES).items():
            lines.append(f"use {module}.{{{', '.join(names)}}}")
        lines += ["use Rattle.std.proofs.Common.{Bool as Boole}", "use Rattle.kmip_ttlv_parts.specs.declared.types.TtlvType.{TtlvType}", "use Rattle.kmip_ttlv_parts.specs.declared.types.TtlvType.TheVariants as types"]
        groups = {one.group.name: one.group for t in types for one in t.one_ofs}
        held = {v.type.name: v.type for t in types if t.kind == "choice" for v in t.variants if v.type and not v.type.is_open and v.type not in types}
        for wrapper in [t for t in held.values() if t.kind == "wrapper"]:
            inmost = wrapper
            while inmost.kind == "wrapper" and inmost.given[0].type:
                inmost = inmost.given[0].type
            held.setdefault(inmost.name, inmost)
        if "Enumeration" in body:
            lines.append("use Rattle.kmip_ttlv_parts.specs.declared.enumeration.Enumeration.{Enumeration}")
        for name, module, _, _ in self.listings():
            if re.search(rf"\b{name}\b", body):
                path = f"Rattle.{self.table.crate}.specs.declared.{module.name}.{name}"
                lines += [f"use {path}.{{{name}}}", f"use {path}.TheVariants as {snake(name)}"]
        if re.search(r"\bString A\b|\bVec .* A\b", body):
            lines.append("use Rattle.std.proofs.Common.{String, Vec}")
        if "ℤ" in body:
            lines.append("use Rattle.std.proofs.Common.{ℤ}")
        for word in ("DateTime", "Interval"):
            if re.search(rf"\b{word}\b(?! →  *types)", re.sub(r"types\.\w+|codes \"[^\"]*\"", "", body)):
                lines.append(f"use Rattle.kmip_ttlv_reader.specs.declared.values.{word}.{{{word}}}")
        if re.search(r"\bBoxed\b", body):
            lines.append("use Rattle.kmip_ttlv_parts.specs.declared.boxed.Boxed.{Boxed}")
        if "BigNumber" in body:
            lines.append("use Rattle.kmip_ttlv_reader.specs.declared.values.BigNumber.{BigNumber}")
        for t in [*types, *groups.values(), *held.values()]:
            path = f"Rattle.{self.crate(t)}.specs.declared.{t.module.name}.{t.name}"
            if re.search(rf"\b{t.name}\b", body):
                lines.append(f"use {path}.{{{t.name}}}")
            if t.kind in ("choice", "group"):
                lines.append(f"use {path}.TheVariants as {t.snake}")
        return "\n".join(lines) + "\n" + body

    def choice_definitions(self, t):
        A = " A" if t.owns else ""
        of, name = f"{t.name}{A}", t.snake
        arrow = "{A : Type 0} → " if t.owns else ""
        bound = "{A : Type 0} " if t.owns else ""
        own = f'codes "{t.shape_name}"'
        cases = [f"{name}.{v.name}" if v.number else f"({name}.{v.name} x)" for v in t.variants]
        held = lambda v: f"{snake(v.constant)}.Only" if v.number else "x"
        rows = lambda head, each: "".join(f"{head} {case} = {each(v)}\n" for case, v in zip(cases, t.variants))
        functions = " ".join(f"f{at}" for at in range(len(t.variants)))
        place = {v.name: at for at, v in enumerate(t.variants)}
        out = []
        if t.is_mixed:
            names = "".join(f'    codes "{v.rule_parts[1][0]}" ∷\n' for v in t.named)
            out.append(f"-- the texts of {t.rule_tag} that choose a variant of a `{t.name}` whatever the type of its item is\nabbrev pub {name}_names : List (List ℕ)\n{name}_names =\n{names}    []\n")
        if t.is_by_numbers:
            chosen = rows(f"{name}_chosen_by", lambda v: v.rule_parts[1][0])
            out.append(f"-- the number that chooses what is in a `{t.name}`, of the Enumeration {t.rule_tag}\nabbrev pub {name}_chosen_by : {arrow}{of} → ℕ\n{chosen}")
        elif t.rule_tag:
            chosen = rows(f"Chooses{t.name} said", lambda v: v.chooses(t))
            out.append(f"-- what is said, if it is the text of {t.rule_tag}, chooses what is in a `{t.name}`\nabbrev pub Chooses{t.name} : {arrow}List ℕ → {of} → Type 0\n{chosen}")
        if t.has_heads:
            out.append(f"-- the type of the item of a `{t.name}`\nabbrev pub {name}_typ : {arrow}{of} → TtlvType\n" + rows(f"{name}_typ", lambda v: f"types.{v.typ}"))
        fields = "".join(f"  pub {snake(v.name)} : {'' if v.number else f'{self.definition_of(v)} → '}Meaning\n" for v in t.variants)
        out.append(f"-- what each thing means that a `{t.name}` may hold\npub record {t.name}Cases{' (A : Type 0)' if t.owns else ''} : Type 1 where\n{fields}")
        out.append(f"-- what it means\nunfoldable pub {name}_by : {arrow}{t.name}Cases{A} → {of} → Meaning\n" + rows(f"{name}_by f", lambda v: f"f.{snake(v.name)}{'' if v.number else ' x'}"))
        fields = "".join(f"  pub {snake(v.name)} : {self.holds(t, v, A)}\n" for v in t.variants)
        out.append(f"-- what a `{t.name}` may hold\npub record {t.name}Items {'(A : Type 0) ' if t.owns else ''}(eq : {of} → {of} → Boole) : Type 1 where\n{fields}")
        items = f"{t.name}Items{A} eq"
        eq = f"{bound}{{eq : {of} → {of} → Boole}}"
        forms = [f'variant (codes "{v.rule}") (wrapped i.{snake(v.name)}.form)' for v in t.variants]
        out.append(f"-- its variants, by their rules\nabbrev pub {name}_variants : {eq} → {items} → Variants\n{name}_variants i =\n    " + " (\n    ".join(forms) + " no_variants" + ")" * (len(forms) - 1) + "\n")
        meanings = "".join(f'  {snake(v.name)} = {"as_choice" if v.inner else "as_item"} ({own}) (codes "{v.rule}") i.{snake(v.name)}{f" {held(v)}" if v.number else ""};\n' for v in t.variants)
        out.append(f"abbrev pub {name}_cases : {eq} → {items} → {t.name}Cases{A}\n{name}_cases i = record {{\n{meanings}}}\n")
        means = f"{name}_by ({name}_cases i)"
        unfold = "unfolding tag_of number rule sides equal at_least member in_brackets trim_end chars trim_start encode"
        out += self.begins(t, eq, items, name)
        proved = ""
        for nth, v in enumerate(t.variants):
            at_place = f"(is_there _ {nth} refl)"
            call = "case_within" if v.inner else "case_of" if t.rule_tag else "typed_case"
            picks = "(λ k. refl)"
            if t.rule_tag:
                picks = f"(λ said chooses. {self.picked(name, v)})" if v in t.named else f"(λ said none. chosen_by_others types.{v.typ} ({name}_begins i) none)"
            proved += f"{name}_case i {cases[nth]} = {call} i.{snake(v.name)} {held(v)} {at_place} {picks}\n"
        typ = self.typ(t)("x")
        head = f"Case 0x{t.tag} 0x{t.rule_tag} {typ}" if t.rule_tag else f"TypedCase 0x{t.tag} {typ}"
        relation = f"(λ said x. said ≡ text_of_number ({name}_chosen_by x))" if t.is_by_numbers else f"Chooses{t.name}"
        said = f"said ≡ text_of_number ({name}_chosen_by x)" if t.is_by_numbers else f"Chooses{t.name} said x"
        chooses = f" (λ said. {said})" if t.rule_tag else ""
        unfold = f"{unfold} {name}_by" if t.typed or not t.rule_tag else f"unfolding {name}_by"
        out.append(f"pub {name}_case : {eq} (i : {items}) (x : {of})\n    → {head} (enum ({own}) ({name}_variants i)){chooses} ({means} x)\n{unfold}\n{proved}")
        proved = "".join(
            f"{name}_same i {case} {case.replace(' x)', ' y)')} e = i.{snake(v.name)}.same {held(v)} {held(v).replace('x', 'y') if held(v) == 'x' else held(v)} (i.{snake(v.name)}.rules.same {held(v)} {held(v).replace('x', 'y') if held(v) == 'x' else held(v)} (in_variant e))\n"
            for case, v in zip(cases, t.variants)
        )
        last = f"{name}_same i x y e = absurd (apart e refl)\n" if len(t.variants) > 1 else ""
        out.append(f"pub {name}_same : {eq} (i : {items}) (x y : {of})\n    → ({means} x).value ≡ ({means} y).value\n    → eq x y ≡ true\nunfolding {name}_by\n{proved}{last}")
        words = f"{{typ = {self.typ_function(t)}}}" + (f" {{C = {relation}}}" if t.rule_tag else "")
        words += f" {{m = {means}}}"
        made = f"choice_by {words} 0x{t.tag} 0x{t.rule_tag}" if t.rule_tag else f"choice_by_type {words} 0x{t.tag}"
        out.append(
            f"-- the choice\nabbrev pub {name}_choice : {bound}(eq : {of} → {of} → Boole) → {items} → ChoiceOf {self.in_brackets(of)}\n"
            f"{name}_choice eq i = {made} ({name}_case i) eq ({name}_same i)\n"
        )
        return "".join("\n" + one for one in out)

    def picked(self, name, v):
        """That a variant is the first whose rule holds, where what is said is one of its texts."""
        texts, by_text = v.rule_parts[1], f"chosen_by_text types.{v.typ} ({name}_begins i) {{}} refl"
        if len(texts) < 2:
            return by_text.format("chooses")
        *others, last = [f'(λ (e : said ≡ codes "{text}"). {by_text.format("e")})' for text in texts]
        for one in reversed(others):
            last = f"(⊎_elim {one} {last})"
        return f"{last[1:-1]} chooses"

    def in_brackets(self, of):
        return f"({of})" if " " in of else of

    def definition_of(self, v):
        """What a variant holds, as a type of definitions."""
        if v.leaf:
            return v.leaf.definition
        if v.number:
            return v.constant
        if v.type.is_open:
            return f"Enumeration 0x{v.type.tag}"
        if v.wrapper:
            return self.inner_definition(v.type)
        inner = f"{v.type.name}{' A' if v.type.owns else ''}"
        return f"Boxed {self.in_brackets(inner)} A" if v.is_boxed else inner

    def inner_definition(self, wrapper):
        """What is in a wrapper, as a type of definitions."""
        part = wrapper.given[0]
        if part.type and part.type.kind == "wrapper":
            return self.inner_definition(part.type)
        once = part.leaf.definition if part.leaf else f"{part.type.name}{' A' if part.type.owns else ''}"
        return f"Vec {self.in_brackets(once)} A" if part.is_sequence else once

    def typ(self, t):
        return (lambda x: f"({t.snake}_typ {x})") if t.has_heads else (lambda x: f"types.{t.variants[0].typ}")

    def typ_function(self, t):
        return f"{t.snake}_typ" if t.has_heads else f"(λ x. types.{t.variants[0].typ})"

    def holds(self, t, v, A):
        into = f"(λ (x : {v.constant}). {t.snake}.{v.name})" if v.number else f"{t.snake}.{v.name}"
        if v.inner:
            return f"HeldChoice 0x{t.tag} 0x{t.rule_tag} types.{v.typ} Chooses{v.type.name} {into} eq"
        return f"Held 0x{t.tag} types.{v.typ} {into} eq"

    def begins(self, t, eq, items, name):
        """The texts that its first rules ask for, in their order."""
        if not t.rule_tag:
            return []
        asked = lambda v: "".join(f'codes "{text}" ∷ ' for text in v.rule_parts[1])
        texts = "".join(f"    ({asked(v)}[]) ∷\n" for v in t.named)
        forms = [f'variant (codes "{v.rule}") (wrapped i.{snake(v.name)}.form) ' for v in t.typed]
        others = "(" + "(".join(forms) + "no_variants" + ")" * len(forms) if forms else "no_variants"
        each = "(refl, " * len(t.named) + "refl" + ")" * len(t.named)
        return [
            f"-- the texts of {t.rule_tag} that its rules ask for\nabbrev pub {name}_texts : List (List (List ℕ))\n{name}_texts =\n{texts}    []\n",
            f"{name}_begins : {eq} (i : {items}) → BeginsBy 0x{t.rule_tag} {name}_texts ({name}_variants i) {others}\n"
            f"unfolding parts_of\n{name}_begins i = record {{ all = {each} }}\n",
        ]

    def relation_of(self, t, one):
        A = " A" if t.owns else ""
        arrow = "{A : Type 0} → " if t.owns else ""
        group = f"({one.group.name} A)" if one.group.owns else one.group.name
        rows = "".join(f"{one.relation} x (Some ({one.group.snake}.{v.name} inner)) = {one.holds(place)}\n" for place, v in enumerate(one.group.variants))
        return (
            f"\n-- which `{one.name}` of a `{t.name}` is there, if it is exactly one\nabbrev pub {one.relation} : {arrow}{t.name}{A} → Option {group} → Type 0\n"
            f"{one.relation} x None = ({one.is_one}) → ⊥\n{rows}"
        )
