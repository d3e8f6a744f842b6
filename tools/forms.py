#!/usr/bin/env python3
"""Lists the places in src/ where an older form may stand, for each of the points that docs/DESIGN-PASS.md counts.

usage: python3 tools/forms.py [POINT..]      at the top of a checkout; with no point, the counts of all

Each rule goes by the text of the sources, so it also lists places that read well; the page says which were changed and which stay, and why.
"""

import collections
import pathlib
import re
import sys

KIND = re.compile(r"(?<![A-Za-z])(Port|Ipv4|Ipv6|port|ipv4|ipv6|IPv4|IPv6)(?![a-z])|(?<=[a-z_])[46](?=\W)|\b(16|32|128|4294967295|65535|u16|u32|u128|2|4)\b")
ITEM = re.compile(r"^( *)(?:pub(?:\(crate\))? )?(?:const )?(?:final )?fn (\w+)", re.M)


def sources():
    return {p: p.read_text() for p in sorted(pathlib.Path("crates").glob("*/src/**/*.rt"))}


def functions(text):
    """Name, first line, and whole text of each function, by its indentation."""
    for m in ITEM.finditer(text):
        head = re.compile(r"\{\}?$|;$", re.M).search(text, m.start())
        close = re.compile(r"^" + m[1] + r"\}$", re.M)
        end = close.search(text, head.end()) if head and head[0] == "{" else head
        yield m[2], text.count("\n", 0, m.start()) + 1, text[m.start():end.end() if end else len(text)]


def lines(pattern, skip=None):
    for path, text in sources().items():
        for n, line in enumerate(text.splitlines(), 1):
            if re.search(pattern, line) and not (skip and re.search(skip, line)) and not line.lstrip().startswith("//"):
                yield f"{path}:{n}: {line.strip()}"


def point1():
    """Enums that hold one Result or Option beside bare cases, flags beside values, numbers for kinds, refusals or none."""
    for path, text in sources().items():
        for m in re.finditer(r"enum (\w+)[^{]*\{(.*?)\n\}", text, re.S):
            body = re.sub(r"//.*", "", m[2])
            cases = [c for c in re.split(r",\n", body) if c.strip()]
            if len(cases) == 2 and ("Result<" in body or "Option<" in body):
                yield f"{path}:{text.count(chr(10), 0, m.start()) + 1}: enum {m[1]}"
        for name, n, body in functions(text):
            head = body.split("{")[0]
            if re.search(r"-> \(bool", head):
                yield f"{path}:{n}: fn {name}, a flag beside values"
            if re.search(r"-> u(8|16)\b", head) and re.search(r"\bErr\(|Refusal|NotForwarded", body) and name != "number":
                yield f"{path}:{n}: fn {name}, a number for a refusal or none"
            if len(re.findall(r"^\s+\d+ => \"", body, re.M)) > 1:
                yield f"{path}:{n}: fn {name}, numbers for kinds"
            if len(re.findall(r"=> \d+,", body)) > 3:
                yield f"{path}:{n}: fn {name}, a table of numbers"
            if re.search(r"\b(k|root|right|left|mark|i|free) [!=]= 0\b|n\.left == 0", body):
                yield f"{path}:{n}: fn {name}, 0 for no node"
    yield from lines(r"^\s+(pub(\(crate\))? )?\w+: bool,")
    yield from lines(r": \[u32; (17|9|6)\]")


def point2():
    """Functions that are the same text but for a kind or a number, and structs that are."""
    seen = collections.defaultdict(list)
    for path, text in sources().items():
        for name, n, body in functions(text):
            if "{" in body and body.count("\n") > 1:
                said = re.sub(r"ensures.*|requires.*|ghost.*|pub(\(crate\))? ", "", body)
                seen[KIND.sub("K", re.sub(r"\s+", " ", said))].append(f"{path}:{n}: fn {name}")
        for m in re.finditer(r"^pub struct (\w+)[^;{]*\{.*?^\}", text, re.M | re.S):
            said = re.sub(r"ghost use.*", "", m[0])
            seen[KIND.sub("K", re.sub(r"\s+", " ", said))].append(f"{path}:{text.count(chr(10), 0, m.start()) + 1}: struct {m[1]}")
    for places in seen.values():
        if len(places) > 1:
            yield " = ".join(places)


def point3():
    """Loops over a range of numbers, and loops that count by hand."""
    yield from lines(r"for [a-z]\w* in \(?\w+\.\.")
    yield from lines(r"^\s*\w+ \+= 1;|(?<!\*)\b\w+ = \w+\.saturating_add\(1\);")


def point4():
    """Comparisons, conversions and printing written by hand."""
    for path, text in sources().items():
        for name, n, body in functions(text):
            if re.match(r"(lt|same|compare|eq|cmp|partial_cmp|same_\w+|is_before|is_closer|fmt|clone|number|shown|hop|value|refused|found|label)$", name):
                yield f"{path}:{n}: fn {name}"


def point5():
    """Clauses that three or more functions have, and parameters that go together in three or more."""
    seen = collections.defaultdict(set)
    pairs = collections.defaultdict(set)
    for path, text in sources().items():
        for name, n, body in functions(text):
            for m in re.finditer(r"(requires|ensures)(?: \w+)? \{(.*)\}", body):
                said = re.sub(r"\b(self|store|nodes|table|list|out)\.(old|new|now)\b", "X", m[2])
                seen[(path.parts[1], said.strip())].add(name)
            head = re.search(r"\((.*?)\)\s*(->|\n|\{|requires|ensures)", body[body.index(f"fn {name}"):], re.S)
            params = re.findall(r"(\w+): (&?(?:mut )?[\w<>\[\]:&' ]+)", head[1]) if head else []
            for i, p in enumerate(params):
                for q in params[i + 1:]:
                    pairs[(path.parts[1], f"{p[0]}: {p[1].strip()}", f"{q[0]}: {q[1].strip()}")].add(name)
    for (crate, said), names in seen.items():
        if len(names) >= 3:
            yield f"{crate}: {said[:110]} ({len(names)}: {', '.join(sorted(names))})"
    for (crate, p, q), names in pairs.items():
        if len(names) >= 3:
            yield f"{crate}: {p} with {q} ({len(names)}: {', '.join(sorted(names))})"


def point6():
    """Structs with a slice and a number, functions over two slices, links by number."""
    for path, text in sources().items():
        for m in re.finditer(r"struct (\w+)[^;{]*\{(.*?)^\}", text, re.M | re.S):
            body = re.sub(r"ghost .*", "", m[2])
            if re.search(r": &|: \[", body) and re.search(r": (usize|u16|u8|u32|Heads)\b", body):
                yield f"{path}:{text.count(chr(10), 0, m.start()) + 1}: struct {m[1]}"
            if re.search(r"(left|right|root|free): u16", body):
                yield f"{path}:{text.count(chr(10), 0, m.start()) + 1}: struct {m[1]}, links by number"
        for name, n, body in functions(text):
            head = body.split("ensures")[0].split("requires")[0]
            if re.search(r"\w: usize", head) and re.search(r"&(mut )?\[", head):
                yield f"{path}:{n}: fn {name}, a slice and a number"
            if re.search(r"\(\s*(&self,)?[^)]*&\[u32\][^)]*&mut \[u16\]", head):
                yield f"{path}:{n}: fn {name}, two rows"


def point7():
    """Chains of tests, or a match, on a number or a flag that chooses a step."""
    for path, text in sources().items():
        for name, n, body in functions(text):
            if len(re.findall(r"(if|else if) (turn|!?world\.direct|direct|\w+ == \d+)\b", body)) > 1 or re.search(r"if direct \{|match (turn|(self\.)?random\.below|self\.world\.updates)\b", body):
                yield f"{path}:{n}: fn {name}"


def point8():
    """Answers to goals and lemmas, by number of lines in proofs/."""
    for crate in sorted(pathlib.Path("crates").iterdir()):
        files = list(crate.glob("proofs/**/*.antt"))
        if files:
            yield f"{crate.name}: {sum(len(p.read_text().splitlines()) for p in files)} lines in {len(files)} files"


def main():
    for n in [int(a) for a in sys.argv[1:]] or range(1, 9):
        rule = globals()[f"point{n}"]
        places = list(rule())
        print(f"point {n}: {len(places)}    {rule.__doc__}")
        if len(sys.argv) > 1:
            print("".join(f"    {p}\n" for p in places), end="")


main()
