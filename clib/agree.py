#!/usr/bin/env python3
"""Whether the header of the library, the crate `sr_c` and the bindings agree: the names of the calls, the numbers of faults and of what a
call is told, the fields of the structs and their order. Prints a line for each difference, and exits with 1 where there is one.

agree.py [ROOT]: of the repository at ROOT, this one where none is given."""
import re
import sys
from pathlib import Path

# What stands in the C beside the crate: it calls the one of the crate that is named.
IN_C = {"seamless_open": "seamless_make", "seamless_resume": "seamless_remake"}
WIDTHS = {"uint8_t": "u8", "uint16_t": "u16", "uint32_t": "u32", "uint64_t": "u64"}
# The constants of the crate, by the words of the header.
NUMBERS = {"NO_MEMORY": "NO_MEMORY", "ARGUMENT": "ARGUMENT", "CLOSED": "CLOSED", "OPEN": "OPEN", "OWN": "OWN", "ABI": "ABI",
           "VERSION": "VERSION", "SNAPSHOT": "SNAPSHOT", "APART": "APART"}
FAULTS = {"UNREAD": "Reading", "UNTAGGED": "Untagged", "TABLE_FULL": "TableFull", "OUTBOX_FULL": "OutboxFull"}


def header_calls(header):
    return set(re.findall(r"^\w+ (seamless_\w+)\(", header, re.MULTILINE))


def crate_calls(sources):
    return set(re.findall(r'pub extern "C" fn (seamless_\w+)\(', sources))


def header_numbers(header):
    named = re.findall(r"SEAMLESS_(\w+) = (\d+)", header) + re.findall(r"#define SEAMLESS_(\w+) (\d+)", header)
    return {name: int(number) for name, number in named}


def header_structs(header):
    """The fields of each struct as Rattle writes them."""
    structs = {}
    for body, name in re.findall(r"typedef struct seamless_\w+ \{(.*?)^\} seamless_(\w+);", header, re.MULTILINE | re.DOTALL):
        fields = re.findall(r"^ +(\w+) (\w+)(?:\[(\d+)\])?;", body, re.MULTILINE)
        structs[name] = [(field, f"[{WIDTHS[kind]}; {count}]" if count else WIDTHS.get(kind, kind)) for kind, field, count in fields]
    return structs


def crate_structs(sources):
    structs = {}
    for name, body in re.findall(r"pub struct (\w+)Entry \{(.*?)^\}", sources, re.MULTILINE | re.DOTALL):
        structs[name.lower()] = re.findall(r"^ +pub (\w+): (.*),$", body, re.MULTILINE)
    return structs


def fault_findings(root, numbers):
    """Faults that a binding has under another number, or not at all. A node of the Rust binding is always open."""
    rust, python = ((root / path).read_text() for path in ("bindings/rust/seamless/src/fault.rs", "bindings/python/seamless.py"))
    for name, number in numbers.items():
        if 257 <= number < 300:
            if f"    {name} = {number}\n" not in python:
                yield f"the fault `{name}` is not {number} in the Python binding"
            if name not in ("CLOSED", "OPEN") and f"{number} => Err(Fault::{name.title().replace('_', '')})" not in rust:
                yield f"the fault `{name}` is not {number} in the Rust binding"


def version_findings(root, header, number):
    """Places that name another version than the header's number."""
    version = f"{number // 10000}.{number // 100 % 100}.{number % 100}"
    for path, line in [("clib/include/seamless.h", f'#define SEAMLESS_VERSION_TEXT "{version}"'), ("clib/Makefile", f"VERSION = {version}"),
                       ("bindings/rust/seamless/Cargo.toml", f'version = "{version}"'), ("bindings/rust/seamless-sys/Cargo.toml", f'version = "{version}"')]:
        if line not in (root / path).read_text().split("\n"):
            yield f"{path} has another version than {version}"


def findings(root):
    header = (root / "clib/include/seamless.h").read_text()
    sources = "\n".join(path.read_text() for path in sorted((root / "crates/sr_c/src").glob("*.rt")))
    calls = {IN_C.get(name, name) for name in header_calls(header)}
    for name in sorted(calls ^ crate_calls(sources)):
        yield f"`{name}` is a call of the header or of the crate alone"
    numbers = header_numbers(header)
    for name, constant in NUMBERS.items():
        found = re.search(rf"const {constant}: u32 = (\d+);", sources)
        if not found or numbers.get(name) != int(found[1]):
            yield f"`{name}` is {numbers.get(name)} in the header, and {found and found[1]} in the crate"
    for name, variant in FAULTS.items():
        found = re.search(rf"StepFault::{variant}(?:\(_\))? => (\d+)", sources)
        if not found or numbers.get(name) != int(found[1]):
            yield f"`{name}` is {numbers.get(name)} in the header, and {found and found[1]} in the crate"
    structs = crate_structs(sources)
    for name, fields in header_structs(header).items():
        if name != "node" and structs.get(name.removesuffix("_entry")) != fields:
            yield f"the struct `{name}` has other fields in the crate"
    yield from fault_findings(root, numbers)
    yield from version_findings(root, header, numbers["VERSION"])
    for path in ("bindings/rust/seamless-sys/src/lib.rs", "bindings/python/seamless.py"):
        binding = (root / path).read_text()
        for name in sorted(header_calls(header)):
            if name not in binding:
                yield f"`{name}` is not in {path}"
        for name in sorted(set(re.findall(r"\bseamless_(?!node\b|setup\b)\w+", binding)) - header_calls(header)):
            yield f"`{name}` of {path} is no call of the header"


if __name__ == "__main__":
    found = list(findings(Path(sys.argv[1]) if len(sys.argv) > 1 else Path(__file__).resolve().parent.parent))
    for line in found:
        print(f"agree: {line}")
    sys.exit(1 if found else 0)
