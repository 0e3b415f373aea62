#!/usr/bin/env python3
"""docs/PROMISES.md against the tree: it names every wrong version and no other, and every theorem and definition that it names is there.
And crates/host_c against crates/host: it exports just the calls that include/pot.h declares, each with the parameters and the promise of
the call that it hands on to.

In the page a name like `find/Finding.count_on` is `count_on` in specs/Finding.antt or proofs/Finding.antt of that crate.
"""

import re
import sys
from pathlib import Path

root = Path(__file__).resolve().parent.parent
page = (root / "docs/PROMISES.md").read_text()
faults = []

section = page.split("## Wrong versions", 1)[1].split("\n## ", 1)[0]
listed = re.findall(r"^- `([a-z_]+)`: (.*)$", section, re.M)
named = {(crate, label) for crate, labels in listed for label in re.findall(r"`([A-Za-z0-9_-]+)`", labels)}
named |= set(re.findall(r"`([a-z_]+)/([A-Za-z0-9_-]+)`", section))
have = {(p.parent.parent.name, p.stem) for p in root.glob("crates/*/must-fail/*.edit")}
faults += [f"not in the page: {c}/{l}" for c, l in sorted(have - named)]
faults += [f"not in the tree: {c}/{l}" for c, l in sorted(named - have)]

declared = {}
for path in root.glob("crates/*/*/*.antt"):
    crate = path.parent.parent.name
    for name in re.findall(r"^\s*(?:abbrev |unfoldable )?(?:pub )?(?:record |data )?([^\s:(){}]+)(?= :| \(| \{)", path.read_text(), re.M):
        declared.setdefault((crate, path.stem), set()).add(name)
for crate, module, name in re.findall(r"`(?:([a-z_]+)/)([A-Z][A-Za-z0-9]*)\.([^`]+)`", page):
    if name not in declared.get((crate, module), ()):
        faults.append(f"no such name: {crate}/{module}.{name}")


def calls(crate, mark):
    """Each call of the boundary with its parameters, its result and its promise, however they are laid out."""
    text = (root / f"crates/{crate}/src/lib.rt").read_text()
    heads = re.findall("^" + re.escape(mark) + r" (pot_\w+)(.*?)^\{", text, re.M | re.S)
    return {name: re.sub(r"\s", "", head).replace(",)", ")") for name, head in heads}


inner, exported = calls("host", "pub fn"), calls("host_c", '#[unsafe(no_mangle)]\npub extern "C" fn')
header = re.findall(r"^(?:uint32_t|struct \w+) (pot_\w+)\(", (root / "include/pot.h").read_text(), re.M)
faults += [f"not in both include/pot.h and crates/host_c: {name}" for name in sorted(set(header) ^ set(exported))]
faults += [f"not the same in crates/host_c as in crates/host: {name}" for name in exported if exported[name] != inner.get(name)]

print("\n".join(faults) or f"{len(have)} wrong versions, all named")
sys.exit(bool(faults))
