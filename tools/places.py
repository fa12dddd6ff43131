#!/usr/bin/env python3
"""Counts the places in src/ that the points of docs/DESIGN-PASS.md ask for: places.py [COMMIT] [--list POINT]. Without a commit, the files as they stand."""
import re
import subprocess
import sys
from collections import defaultdict
from pathlib import Path

ROOT = Path(__file__).resolve().parent.parent


def files(commit, suffix, part):
    if commit is None:
        for path in sorted((ROOT / "crates").glob(f"*/{part}/**/*{suffix}")):
            yield str(path.relative_to(ROOT)), path.read_text()
        return
    names = subprocess.run(["git", "ls-tree", "-r", "--name-only", commit, "crates"], cwd=ROOT, capture_output=True, text=True, check=True).stdout.split("\n")
    for name in names:
        if f"/{part}/" in name and name.endswith(suffix):
            yield name, subprocess.run(["git", "show", f"{commit}:{name}"], cwd=ROOT, capture_output=True, text=True, check=True).stdout


def bare(text):
    return re.sub(r"//[^\n]*", "", text)


def functions(text):
    """(name, parameters, result, clauses, body) of each function."""
    out = []
    for m in re.finditer(r"(?m)^( *)(?:pub(?:\([a-z]+\))? )?(?:unsafe )?(?:extern \"C\" )?fn (\w+)[^(]*\(", text):
        depth, i = 1, m.end()
        while depth and i < len(text):
            depth += {"(": 1, ")": -1}.get(text[i], 0)
            i += 1
        params = text[m.end():i - 1]
        end = re.compile(r"(?m)^%s\}$" % m.group(1)).search(text, i)
        if not end:
            continue
        rest = text[i:end.start()]
        brace = re.search(r"(?m)^%s\{$| \{$" % m.group(1), rest)
        if not brace:
            continue
        head, body = rest[:brace.start()], rest[brace.end():]
        result = re.match(r"\s*->\s*([^\n{]*)", head)
        out.append((m.group(2), params, result.group(1).strip() if result else "", head, body.strip("\n")))
    return out


def shape(body):
    """The body with its names and numbers numbered in the order in which they come."""
    seen = {}
    words = re.findall(r"[A-Za-z_][A-Za-z_0-9]*|\d[\w]*|\"[^\"]*\"|\S", body)
    keep = {"if", "else", "while", "for", "in", "let", "mut", "return", "match", "loop", "break", "continue", "as", "true", "false"}
    return tuple(w if w in keep or not re.match(r"[\w\"]", w) else seen.setdefault(w, len(seen)) for w in words)


def points(commit):
    found = defaultdict(list)
    shapes, clauses, groups = defaultdict(list), defaultdict(set), defaultdict(set)
    for name, whole in files(commit, ".rt", "src"):
        text = bare(whole)
        for m in re.finditer(r"(?ms)^(?:pub )?enum (\w+) \{\n(.*?)^\}", text):
            if re.search(r"(?m)^    (None|Nothing|Refused|Unreached|Unasked|Missing|NotFound)\b", m.group(2)):
                found[1].append(f"{name}: enum {m.group(1)}")
        for m in re.finditer(r"(?ms)^(?:pub )?struct (\w+)[^\n]*\{\n(.*?)^\}", text):
            fields = re.findall(r"(?m)^    (?:pub )?(\w+): ([^\n]*),$", m.group(2))
            if len(fields) > 1 and any(re.match(r"is_|bad$|why$|saved$|found$|has_", f) and t in ("bool", "u8", "u32") for f, t in fields):
                found[1].append(f"{name}: struct {m.group(1)}, a flag or a code beside values")
            sizes = [f for f, t in fields if t == "usize"]
            arrays = [f for f, t in fields if t.startswith("[") or t.startswith("&")]
            if sizes and arrays:
                found[6].append(f"{name}: struct {m.group(1)}, a buffer with a length beside it")
        for m in re.finditer(r"(?m)^(?:pub )?const (\w*(?:NONE|NO_|NOT|UNREACHED|ACCEPTED|REFUSED)\w*): (\w+) =", text):
            found[1].append(f"{name}: const {m.group(1)}, a number for a kind")
        for fn, params, result, head, body in functions(text):
            at = f"{name}: {fn}"
            if re.search(r"result ≡ first_broken", head) and "u8" in result:
                found[1].append(f"{at} answers the number of a refusal")
            for w in re.finditer(r"(?m)^( *)while ([^\n]*) \{\n(.*?)^\1\}", body, re.S):
                names = set(re.findall(r"[a-z_]\w*", w.group(2)))
                if any(n in names for n in re.findall(r"\b([a-z_]\w*) \+= 1\b", w.group(3))) and re.search(r"<|<=|!=", w.group(2)):
                    found[3].append(f"{at}, while {w.group(2)}")
            lines = [l for l in body.split("\n") if l.strip()]
            if len(lines) >= 3 and fn != "main":
                shapes[shape(body)].append(at)
            one = body.strip()
            if re.fullmatch(r"\(?\w+(\.\w+)? as \w+\)?", one) or re.fullmatch(r"\(?\w+ % \d+\)? as \w+|\(\w+ % \d+\) as \w+", one) or re.fullmatch(r"\d+ \* \(\w+ as \w+\) \+ \(\w+ as \w+\)", one):
                found[4].append(f"{at}, a conversion")
            elif re.fullmatch(r"\w+ (==|<|<=) \w+( && \w+ (==|<|<=) \w+)?", one) and len(params) < 60:
                found[4].append(f"{at}, a comparison")
            elif re.fullmatch(r"if (\w+) <=? (\w+) \{\s*return \w+;\s*\}\s*\w+", one):
                found[4].append(f"{at}, the lesser or the greater of two")
            elif len(re.findall(r"if \w+ == \d+ \{\s*return [A-Z]\w*::\w+;\s*\}", one)) > 1:
                found[4].append(f"{at}, a number turned to an enum")
            elif re.fullmatch(r"if \w+(\.\w+)* == \w+(\.\w+)* \{\s*return \w+(\.\w+)* == \w+(\.\w+)*;\s*\}\s*false", one):
                found[4].append(f"{at}, equality of structs")
            elif re.search(r"if \w+ < \d+ \{\s*return \w+ as \w+;\s*\}\s*!\(!\w+ as \w+\)|return !\(!\w+ as \w+\)", one):
                found[4].append(f"{at}, the sign of a number")
            for c in re.finditer(r"requires(?: \w+)? \{([^\n]*)\}", head):
                for fact in re.split(r" × ", c.group(1).strip()):
                    if re.search(r"[A-Z]\w+ ", fact):
                        clauses[re.sub(r"\.(old|new|now)\b", "", fact.strip(" ()"))].add(at)
            types = re.findall(r"(\w+): (&[^,\n]*?)(?:,|$|\n)", params.replace(", ", ",\n"))
            lent = tuple(sorted(p for p, t in types if "[" in t))
            if len(lent) >= 3:
                for i in range(len(lent)):
                    for j in range(i + 1, len(lent)):
                        for k in range(j + 1, len(lent)):
                            groups[lent[i], lent[j], lent[k]].add(at)
            if re.search(r": &mut \[", params) and result == "usize":
                found[6].append(f"{at} answers the length of what it wrote into a lent buffer")
            if re.match(r"\s*if (back|forward|is_\w+) \{\s*(return )?\w+\(", body) and "bool" in params:
                found[7].append(f"{at}, a switch on a flag")
            if "bool" in params and re.search(r"\bback: bool", params):
                found[7].append(f"{at} takes a flag that says which way")
    for where in shapes.values():
        if len(where) > 1:
            found[2].append(" = ".join(where))
    for fact, where in clauses.items():
        if len(where) >= 3:
            found[5].append(f"the fact {fact} in {len(where)} functions")
    best = {}
    for group, where in groups.items():
        if len(where) >= 3:
            best.setdefault(frozenset(where), set()).update(group)
    for where, names in best.items():
        found[5].append(f"{', '.join(sorted(names))} lent together to {len(where)} functions")
    for name, text in files(commit, ".antt", "proofs"):
        if name.endswith("/Answers.antt"):
            found[8].append(name)
    return found


def main():
    args = sys.argv[1:]
    shown = None
    if "--list" in args:
        i = args.index("--list")
        shown = int(args[i + 1])
        del args[i:i + 2]
    found = points(args[0] if args else None)
    for point in range(1, 9):
        print(f"{point}: {len(found[point])}")
        if shown == point:
            print("".join(f"    {place}\n" for place in found[point]), end="")


main()
