"""Compares the header, and what is declared for Python and Rust (bindings/), with the sources of the library: each number, the fields of
each struct, and the name and type of each argument, in their order.

    python3 header.py

Each difference is a line, and the status is 1 if there is any.
"""
import os
import re
import sys

HERE = os.path.dirname(os.path.abspath(__file__))
CRATE = os.path.dirname(HERE)


def text_of(path):
    """A file, named from the library's folder."""
    with open(f"{CRATE}/{path}", encoding="utf-8") as it:
        return it.read()


def after(text, words, end="}\n"):
    """What stands behind these words, up to where the function or block ends."""
    return text[text.index(words) :].split("\n" + end, 1)[0]


def capitals(name):
    """NoStructure becomes NO_STRUCTURE."""
    return re.sub(r"(?<=[a-z])(?=[A-Z])", "_", name).upper()


def arms(text, words, kind):
    """The numbers of the arms of a match in this function: `FaultKind::Cut => 1`."""
    return {capitals(name): int(number) for name, number in re.findall(rf"{kind}::(\w+) => (\d+)", after(text, words))}


# What is wrong with JSON, where the header has another name for it.
OF_JSON = {"NOT_STRUCTURE": "NO_STRUCTURE", "MEMBERS": "NOT_ITEM", "TAG": "NOT_TAG", "TYP": "UNKNOWN_TYPE", "VALUE": "INVALID_VALUE"}


def numbers_of_sources(status, items, writing, json, types):
    """All names with a number: statuses, what is hidden, types, what is wrong with a message, an item or JSON."""
    found = {name: int(number) for name, number in re.findall(r"pub const (\w+): u32 = (\d+);", status + json)}
    none = [re.search(r"None => \w+ \{ \w+: 0, kind: (\d+) \}", text) for text in (items, writing)]
    parts = [arms(types, "pub fn code(", "TtlvType"), arms(items, "fn kind_of(", "FaultKind")]
    parts += [arms(writing, "fn kind_of(", "BadKind"), *({"WHOLE": int(it[1])} for it in none)]
    of_json = arms(json, "fn kind_of_member(", "BadMember") | arms(json.replace(" { .. }", ""), "fn kind_of(", "JsonError")
    parts += [{OF_JSON.get(name, name): number for name, number in of_json.items() if name != "OUT_OF_MEMORY"}]
    for part in parts:
        for name, number in part.items():
            if found.setdefault(name, number) != number:
                yield name, "two numbers"
    yield from found.items()


# A type of an argument or a field as the sources have it, as C declares it, and as Rust does.
PLAIN = {"bool": ("bool", "bool"), "usize": ("size_t", "usize"), "u32": ("uint32_t", "u32"), "&mut usize": ("size_t *", "*mut usize")}
STRUCTS = {"KmipTtlvItem": ("kmip_ttlv_item", "Item"), "KmipTtlvFault": ("kmip_ttlv_fault", "Fault")}
STRUCTS["KmipTtlvBadItem"] = ("kmip_ttlv_bad_item", "BadItem")


def arguments(words):
    """The arguments of an exported call as C has them, each as its name, its type in C and its type in Rust."""
    for name, kind in re.findall(r"(\w+): ([^,]+)", words):
        changed = "mut " in kind
        slice_of = re.fullmatch(r"&(?:mut )?\[(\w+)\]", kind)
        if kind == "Global":
            continue
        if slice_of and slice_of[1] == "u8":
            yield name, "uint8_t *" if changed else "const uint8_t *", "*mut c_uchar" if changed else "*const c_uchar"
            yield "room" if changed else name + "_len", "size_t", "usize"
        elif slice_of:
            in_c, in_rust = STRUCTS[slice_of[1]]
            yield "items", f"{in_c} *" if changed else f"const {in_c} *", f"*mut {in_rust}" if changed else f"*const {in_rust}"
            yield "room" if changed else "count", "size_t", "usize"
        elif kind in PLAIN:
            yield name, *PLAIN[kind]
        else:
            in_c, in_rust = STRUCTS[kind.removeprefix("&mut ")]
            yield name, f"{in_c} *", f"*mut {in_rust}"


def in_python(words):
    """How the module declares these arguments: a pointer to bytes and their length are one."""
    kinds = {"bool": "ctypes.c_bool", "uint32_t": "ctypes.c_uint32", "size_t": "_size", "size_t *": "_sizes"}
    for name, kind, _ in words:
        if name.endswith("_len") or name == "room" and listed == "_lent":
            continue
        struct = re.sub(r"const |kmip_ttlv| \*", "", kind)
        listed = kinds.get(kind) or ("_lent" if "uint8_t" in kind else f"ctypes.POINTER({re.sub('_([a-z])', lambda it: it[1].upper(), struct)})")
        yield listed.replace("POINTER(", "POINTER(_")


def declared(text, pattern, split):
    """The names and types of what is declared between brackets in a caller or the header."""
    for name, words in re.findall(pattern, text):
        yield name, [re.fullmatch(split, " ".join(it.split())).groups() for it in words.split(",") if it.strip()]


def main():
    header, module, rust = text_of("include/kmip_ttlv.h"), text_of("../../bindings/python/kmip_ttlv.py"), text_of("../../bindings/rust/src/raw.rs")
    status, items, writing, json, calls, names = (text_of(f"src/{it}.rt") for it in ("status", "items", "writing", "json_text", "calls", "names"))
    wrong = []

    def same(what, got, wanted):
        if got != wanted:
            wrong.append(f"{what}: {got}, in the sources {wanted}")

    numbers = dict(numbers_of_sources(status, items, writing, json, text_of("../kmip_ttlv_types/src/typ.rt")))
    of_header = {name: int(number) for name, number in re.findall(r"#define KMIP_TTLV_(\w+) (\d+)u\n", header)}
    for name in sorted({*numbers, *of_header}):
        same(f"header: {name}", of_header.get(name), numbers.get(name))
    version = re.search(r'const VERSION: &str = "(.*)"', calls)[1]
    same("header: defines", sorted(re.findall(r"#define KMIP_TTLV_(\w+)", header)), sorted([*numbers, "H", "VERSION"]))
    same("header: version", re.search(r'#define KMIP_TTLV_VERSION "(.*)"', header)[1], version)
    same("kmip_ttlv.py: version", re.search(r'\n_VERSION = "(.*)"', module)[1], version)
    statuses = re.findall(r"pub const (\w+): u32", status)
    same("kmip_ttlv.py: statuses", re.search(r"\n([A-Z0-9_, ]+) = range\(", module)[1].split(", "), statuses)
    of_rust = {name: int(number) for name, number in re.findall(r"\npub const (\w+): u32 = (\d+);", rust)}
    # a text of Rust is UTF-8, a slice has a length that it can have, and what is whole is no error
    for name in sorted({*numbers, *of_rust} - {"NOT_UTF8", "BAD_ARGUMENT", "WHOLE"}):
        same(f"raw.rs: {name}", of_rust.get(name), numbers.get(name))
    same("Cargo.toml: version", re.search(r'\nversion = "(.*)"', text_of("../../bindings/rust/Cargo.toml"))[1], version)

    exported = dict(re.findall(r'pub extern "C" fn kmip_ttlv_(\w+)\(([^)]*)\)', calls + items + writing + json + names))
    wanted = {name: list(arguments(" ".join(words.split()))) for name, words in exported.items()}
    of_header = dict(declared(header, r"kmip_ttlv_status kmip_ttlv_(\w+)\(([^)]*)\);", r"(.*?)(\w+)"))
    same("header: calls", sorted(of_header), sorted(wanted))
    of_rust = dict(declared(rust, r"    pub fn kmip_ttlv_(\w+)\(([^)]*)\)", r"(\w+): (.*)"))
    of_module = dict(re.findall(r'= _call\("(\w+)", (.*)\)\n', module))
    for name, words in wanted.items():
        same(f"header: {name}", [(it, kind.strip()) for kind, it in of_header.get(name, [])], [(it, kind) for it, kind, _ in words])
        same(f"kmip_ttlv.py: {name}", of_module.get(name), ", ".join(in_python(words)))
        same(f"raw.rs: {name}", of_rust.get(name), [(it, kind) for it, _, kind in words])
    for name, (in_c, in_rust) in STRUCTS.items():
        fields = re.findall(r"pub (\w+): (\w+),", after(items + writing, f"pub struct {name} {{"))
        block = re.search(r"typedef struct \{([^}]*)\} " + in_c + ";", header)[1]
        same(f"header: {in_c}", re.findall(r"\n    (\w+) (\w+);", block), [(PLAIN[kind][0], it) for it, kind in fields])
        same(f"raw.rs: {in_rust}", re.findall(r"pub (\w+): (\w+),", after(rust, f"pub struct {in_rust} {{")), fields)
        block = after(module, f"class _{in_rust}(ctypes.Structure)", "\n")
        kinds = {"usize": "c_size_t", "u32": "c_uint32"}
        same(f"kmip_ttlv.py: _{in_rust}", fields_in_module(block), [(it, kinds[kind]) for it, kind in fields])
    print("\n".join(wrong) if wrong else f"header.py: {len(numbers)} numbers, {len(wanted)} calls and {len(STRUCTS)} structs are those of the sources")
    return 1 if wrong else 0


def fields_in_module(block):
    """The fields of a struct in the module, in either of its forms: pairs, or names with one type."""
    found = []
    for line in re.findall(r"_fields_ \+?= (\[.*\])", block):
        one = re.search(r"\[\(name, ctypes\.(\w+)\) for name in \((.*)\)\]", line)
        found += [(it, one[1]) for it in re.findall(r'"(\w+)"', one[2])] if one else re.findall(r'\("(\w+)", ctypes\.(\w+)\)', line)
    return found


sys.exit(main())
