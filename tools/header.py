#!/usr/bin/env python3
"""Says whether include/morph.h declares what crates/morph_c exports: the same calls, each with the same parameters and result, the structs with
the same members, and the numbers of its statuses. It prints what differs, and ends with 1 then."""
import re
import sys
from pathlib import Path

ROOT = Path(__file__).resolve().parent.parent
SIMPLE = {"u8": "uint8_t", "u32": "uint32_t", "u64": "uint64_t", "usize": "size_t", "bool": "bool"}
STRUCTS = {"MorphProject": "morph_project", "MorphReply": "morph_reply"}


def parameter(name, kind):
    """The parameters of C that stand for one of Rattle."""
    if kind == "Global":
        return []
    if kind in ("&[u8]", "&mut [u8]"):
        return [("const " if kind == "&[u8]" else "") + f"uint8_t *{name}", f"size_t {name}_len"]
    if kind.startswith("&mut ") and kind[5:] in STRUCTS:
        return [f"{STRUCTS[kind[5:]]} *{name}"]
    return [f"{SIMPLE[kind]} {name}"]


def exports(text):
    for match in re.finditer(r'#\[unsafe\(no_mangle\)\]\s*pub (?:unsafe )?extern "C" fn (\w+)\(([^)]*)\)(?: -> (\w+))?', text):
        name, inside, result = match.groups()
        parts = [part.strip().split(": ", 1) for part in inside.split(",") if part.strip()]
        wanted = [c for part in parts for c in parameter(*part)]
        yield name, f"{SIMPLE[result] if result else 'void'} {name}({', '.join(wanted)})"


def members(text, name):
    """The members of a struct as (name, type), ghost ones left out."""
    body = re.search(rf"pub struct {name} {{(.*?)\n}}", text, re.S)[1]
    return [(m[1], m[2]) for m in re.finditer(r"^    (?:pub )?(\w+): ([^,\n]+),$", body, re.M)]


def main():
    source = "\n".join(path.read_text() for path in sorted((ROOT / "crates/morph_c/src").glob("*.rt")))
    header = (ROOT / "include/morph.h").read_text()
    bare = re.sub(r"/\*.*?\*/", "", header, flags=re.S)
    declared = {m[2]: f"{m[1]} {m[2]}({m[3]})" for m in re.finditer(r"^(uint32_t|void) (morph_\w+)\(([^)]*)\);", bare, re.M)}
    wanted = dict(exports(source))
    faults = []
    for name in sorted(set(declared) | set(wanted)):
        if declared.get(name) != wanted.get(name):
            faults.append(f"{name}: the header has {declared.get(name)!r}, the crate {wanted.get(name)!r}")
    reply = [f"{SIMPLE[kind]} {name};" for name, kind in members(source, "MorphReply")]
    shown = re.findall(r"^    (\w+ \w+;)", re.search(r"typedef struct morph_reply {(.*?)\n}", bare, re.S)[1], re.M)
    if reply != shown:
        faults.append(f"morph_reply: the header has {shown}, the crate {reply}")
    if members(source, "MorphProject") != [("is_there", "bool"), ("slot", "Slot")] or members(source, "Slot") != [("at", "*mut Inside")]:
        faults.append("morph_project: its members have changed")
    named = dict(re.findall(r"MORPH_(\w+) = (\d+)", bare))
    trouble = re.search(r"fn number_of.*?\n}", source, re.S)[0]
    numbers = {re.sub(r"(?<!^)(?=[A-Z])", "_", name).upper(): number for name, number in re.findall(r"Trouble::(\w+)(?:\(_\))? => (\d+)", trouble)}
    spelled = {"MEMORY": "NO_MEMORY", "NOT_UTF8": "NOT_UTF8"}
    numbers = {spelled.get(name, name): number for name, number in numbers.items()}
    numbers.update({"OK": re.search(r"const OK: u32 = (\d+)", source)[1], "NO_ROOM": re.search(r"const NO_ROOM: u32 = (\d+)", source)[1]})
    if named != numbers:
        faults.append(f"statuses: the header has {named}, the crate {numbers}")
    for fault in faults:
        print(fault)
    print(f"{len(wanted)} exports, {len(faults)} differ")
    sys.exit(1 if faults else 0)


main()
