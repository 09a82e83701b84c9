#!/usr/bin/env python3
"""Brings the names that this repository declares in specs/ and proofs/ to one spelling.

  respell.py [--dry]      at the top of the repository, once, after the kit's own porting script

Types and modules stay in camel case. All other names become snake case: a capital inside a name and a dash between two words become
an underscore. A dash beside a symbol stays, as in mul-≤. Names of src/, of goals, of the kit and strings stay as they are.
Prints each name with its new spelling, and stops where two names would fall together."""
import collections
import os
import re
import sys

WORD = r"[^\s(){}\[\];,.:λ@\"«»`·]+"
TOKEN = re.compile(r"(?<![^\s(){}\[\];,.:λ@\"«»`·])" + WORD)
MARKS = r"(?:(?:abbrev|pub|unfoldable|opaque|pattern|instance)\s+)*"
SIGNATURE = re.compile(r"^\s*" + MARKS + r"(" + WORD + r")(?:\s+\{[^}]*\})?\s+:\s(.*)$")
# lemmas whose new name a definition takes
OTHERWISE = {"labels_in": "labels_in_lem", "numbers_in": "numbers_in_lem"}


def files(top):
    for folder, dirs, names in os.walk(os.path.join(top, "crates")):
        dirs[:] = sorted(d for d in dirs if d not in ("out", "data"))
        for name in sorted(names):
            if name.endswith((".antt", ".rt")):
                yield os.path.join(folder, name)


def own_spelling(name):
    if name in OTHERWISE:
        return OTHERWISE[name]
    if not name[0].islower():
        return name
    name = re.sub(r"(?<=[a-z0-9_'])([A-Z])", lambda m: "_" + m[1].lower(), name)
    return re.sub(r"(?<=[\w'])-(?=[\w'])", "_", name)


def declared(text):
    """The names that an antt file declares, and those of goals and of the kit that it mentions."""
    own, other = set(), set()
    lines = text.split("\n")
    signed = set()
    for line in lines:
        code = re.sub(r"(^|\s)--(\s.*)?$", "", line)
        if re.match(r"\s*(pub\s+)?use\s", code):
            listed = re.search(r"\{(.*)\}", code)
            path = code.split("use", 1)[1].split("{")[0].strip()
            local = re.match(r"Rattle\.(\w+)\.(specs|proofs)\b", path)
            foreign = not local or local[1] == "std" or re.search(r"\.(Goals|Given|declared)\b", path)
            for item in listed[1].split(",") if listed else []:
                words = item.split()
                if foreign and words:
                    other.add(words[0])
                if len(words) == 3:
                    own.add(words[2])
            continue
        s = SIGNATURE.match(code)
        if s:
            if s[2].startswith("goal."):
                other.add(s[1])
            else:
                own.add(s[1])
                signed.add(s[1])
        for group in re.finditer(r"[({]([^(){}:=]+?)\s:\s", code):
            own.update(group[1].split())
        for bound in re.finditer(r"λ\s+([^.(]+)\.", code):
            own.update(bound[1].split())
        for let in re.finditer(r"\blet\s+(" + WORD + r")", code):
            own.add(let[1])
        head = re.match(r"^\s*(" + WORD + r")\s([^=]*)\s=(\s|$)", code)
        if head and head[1] in signed:
            own.update(TOKEN.findall(head[2]))
    return own, other


def clauses(text):
    """The stretches of a source file that are contracts: ghost items, and what follows requires and ensures."""
    for m in re.finditer(r"\bghost use [^;]*;|\b(?:requires|ensures)\*?(?:\s+\w+)?\s*\{|\bghost \w+\s*[:=]\s*\{|\bghost \w+: \{", text):
        if m[0].endswith(";"):
            yield m.start(), m.end()
            continue
        depth, i = 1, m.end()
        while i < len(text) and depth:
            depth += (text[i] == "{") - (text[i] == "}")
            i += 1
        yield m.start(), i


def respelled(text, names):
    def one(m):
        return names.get(m[0], m[0])

    out = []
    for line in text.split("\n"):
        if re.match(r"\s*--", line):
            # a gloss keeps its column
            new = re.sub(r"^(\s*--\s{2,})(\S.*?)(\s{2,})(?=\S)", lambda m: pad(m, one), line)
            out.append(TOKEN.sub(one, new))
        elif re.match(r"\s*(pub\s+)?(ghost\s+)?use\s", line) and "{" in line:
            path, listed = line.split("{", 1)
            out.append(path + "{" + TOKEN.sub(one, listed))
        else:
            out.append(TOKEN.sub(one, line))
    return "\n".join(out)


def pad(m, one):
    new = TOKEN.sub(one, m[2])
    return m[1] + new + " " * max(2, len(m[3]) - len(new) + len(m[2]))


def main():
    top = os.getcwd()
    paths = list(files(top))
    texts = {p: open(p, encoding="utf-8").read() for p in paths}
    own, other = set(), collections.defaultdict(set)
    for p, text in texts.items():
        if p.endswith(".antt"):
            here, foreign = declared(text)
            own |= here
            other[p] = foreign
        else:
            for use in re.finditer(r"ghost use ([^;{]*)\{([^}]*)\};", text):
                local = re.match(r"Rattle\.(\w+)\.(specs|proofs)\b", use[1])
                for item in use[2].split(","):
                    words = item.split()
                    if len(words) == 3:
                        own.add(words[2])
                    if words and (not local or local[1] == "std"):
                        other[p].add(words[0])
    foreign = set().union(*other.values())
    functions = set(re.findall(r"\bfn (\w+)", "\n".join(t for p, t in texts.items() if p.endswith(".rt"))))
    definitions = {own_spelling(n) for n in own if "-" not in n and n not in OTHERWISE} | functions
    names = {}
    for name in sorted(own - foreign):
        new = own_spelling(name)
        if new != name:
            # a lemma that would have its function's name
            names[name] = new + "_lem" if "-" in name and new in definitions else new
    tokens = collections.defaultdict(set)
    for p, text in texts.items():
        # the path of an import is no name in scope
        text = re.sub(r"(?m)^\s*(?:pub\s+)?(?:ghost\s+)?use\s[^{\s;]*", "", text)
        if p.endswith(".antt"):
            tokens[p] = set(TOKEN.findall(text))
        else:
            tokens[p] = set(t for a, b in clauses(text) for t in TOKEN.findall(text[a:b]))
    back, bad = collections.defaultdict(set), []
    for name, new in names.items():
        back[new].add(name)
    for new, old in sorted(back.items()):
        with_it = [p for p in paths if new not in names and new in tokens[p] and tokens[p] & old]
        if len(old) > 1 or with_it:
            bad.append(f"{' '.join(sorted(old))} -> {new}: " + (with_it[0] if with_it else ""))
    for name in sorted(names):
        print(name, names[name])
    if bad:
        print("\n".join(["names that would fall together:"] + bad), file=sys.stderr)
        if "--dry" not in sys.argv:
            raise SystemExit(1)
    if "--dry" in sys.argv:
        return
    for p, text in texts.items():
        if p.endswith(".antt"):
            new = respelled(text, {k: v for k, v in names.items() if k not in other[p]})
        else:
            new, at = "", 0
            for a, b in clauses(text):
                if a >= at:
                    new += text[at:a] + respelled(text[a:b], names)
                    at = b
            new += text[at:]
        if new != text:
            with open(p, "w", encoding="utf-8") as f:
                f.write(new)


main()
