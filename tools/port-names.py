#!/usr/bin/env python3
"""Brings the definitions and lemmas of this repository to snake case, as today's Rattle spells its own.

usage: tools/port-names.py [--check]     at the top, once, after the kit's port.py

A definition or lemma of specs/ or proofs/ whose name has an inner capital or a dash gets underscores: `bitsAt` and
`no-bits` become `bits_at` and `no_bits`. Types keep their capitals. A name is turned where it is declared and in each
file that takes it by a `use` line; fields are turned behind a dot and in records. Functions of src/, exported names,
what Rattle makes and the library's names stay. Must-fail edits are turned with the file that they edit.
--check writes nothing, and lists names that would fall together.
"""
import os
import re
import sys

WORD = r"[^\s(){}\[\],;.`\"«»|]+"
TOKEN = re.compile(WORD)
# Names that would fall together with another of their file get these.
CHOSEN = {
    "key-end": "key_end_lem",
    "names-root": "names_root_lem",
    "drawn-root": "drawn_root_lem",
    "line-root": "line_root_lem",
    "key-kinds": "key_kinds_lem",
    "link-kinds": "link_kinds_lem",
    "one_more": "one_more_lem",
    "rootIs": "root_answer",
    "run-pair": "run_pair_lem",
    "same-child": "same_child_lem",
    "not_covered": "not_covered_lem",
    "dataType": "data_type_of",
}


# Fields that are also names of variables, and a variable: these are turned wherever they stand in definitions and proofs.
VARIABLES = {"keyType": "key_type", "rootOfParent": "root_of_parent"}


def snake(name):
    out = re.sub(r"([a-z0-9])([A-Z])", lambda m: m[1] + "_" + m[2].lower(), name) if re.match(r"\+?[a-z]", name) else name
    return out.replace("-", "_").replace("\u2032", "'")


def is_name(word):
    return bool(re.fullmatch(r"\+?[A-Za-z][A-Za-z0-9_'\u2032-]*", word))


def texts(root):
    for top, dirs, files in os.walk(os.path.join(root, "crates")):
        dirs[:] = sorted(d for d in dirs if d != "out")
        for f in sorted(files):
            if f.endswith((".rt", ".antt", ".edit")):
                yield os.path.relpath(os.path.join(top, f), root)


def module_of(path):
    """The module whose items the file declares: crates/pairs/specs/Pairs.antt is Rattle.pairs.specs.Pairs."""
    part = path.split("/")
    if part[2] not in ("specs", "proofs"):
        return None
    return "Rattle." + ".".join([part[1], part[2]] + part[3:])[: -len(".antt")]


DECLARED = re.compile(r"(\s*)(?:(?:abbrev|unfoldable|pub|record|data|ruleset)\s+)*(\+?[A-Za-z][^\s:(){}]*)(?=\s.*|$)")


def declared(text):
    """The names that a file of definitions or lemmas declares, at its top or in its modules with parameters, and the
    fields of its records."""
    names, fields, record, module = set(), set(), None, False
    for line in text.split("\n"):
        if not line.strip() or line.lstrip().startswith("--") or re.match(r"\s*(use|mod|pub mod|pub use|unfolding|ghost use) ", line):
            continue
        deep = len(line) - len(line.lstrip())
        if record and deep > record[0]:
            found = re.match(r"\s+pub (\S+) :", line)
            if found:
                (fields if record[1] == "record" else names).add(found[1])
            continue
        record = None
        if re.match(r"\s*module ", line):
            module = True
            continue
        module = module and deep > 0
        head = re.match(r"\s*(?:(?:abbrev|unfoldable|pub)\s+)*(record|data)\s", line)
        if head:
            record = (deep, head[1])
        if deep == 0 or module:
            found = DECLARED.match(line)
            if found and found[2] not in ("let", "in", "where", "elim") and (re.search(r"\s:(\s|$)", line) or head or re.match(r"\s*(pub )?ruleset", line)):
                names.add(found[2])
    return names, fields


USE = re.compile(r"^(\s*(?:pub |ghost )*use )([^\s{};]+?)(?:\.\{([^}]*)\}| as (\S+?))?(;?)$")
LONG_USE = re.compile(r"^([ \t]*(?:pub |ghost )*use [^\s{};]+\.\{)([^}]*)(\};?)$", re.M)


def lines_of(path, text):
    """The lines of a file, a `use` of several lines as one; and of source whether a line is of a clause."""
    text = LONG_USE.sub(lambda m: m[1] + m[2].replace("\n", "\r") + m[3], text)
    depth = 0
    for line in text.split("\n"):
        clause = depth > 0 or bool(re.match(r"\s*(requires|ensures|ghost)\b(?! use )", line))
        if clause and path.endswith(".rt"):
            code = re.sub(r"(^|\s)//.*", "", line)
            depth += code.count("{") - code.count("}")
        yield line, clause


def main():
    check = "--check" in sys.argv[1:]
    root = "."
    files = {p: open(os.path.join(root, p), encoding="utf-8").read() for p in texts(root)}
    own, fields = {}, set()
    for p, t in files.items():
        m = module_of(p)
        if m and p.endswith(".antt"):
            names, more = declared(t)
            own[m] = names
            fields |= {f for f in more if is_name(f) and snake(f) != f}
    fields_map = {f: snake(f) for f in fields}
    # names that several modules declare are turned alike
    said = []
    scopes = {}
    for p, t in files.items():
        if p.endswith(".edit"):
            continue
        m, scope, other = module_of(p), {}, set()
        if m:
            for n in own.get(m, ()):
                scope[n] = None
        for line, _ in lines_of(p, t):
            u = USE.match(line)
            if not u or u[3] is None:
                continue
            for it in u[3].split(","):
                it = it.strip()
                word = it.split(" as ")[0].strip()
                if u[2] in own and word in own[u[2]]:
                    scope[word] = None
                else:
                    other.add(it.split(" as ")[-1].strip())
        turned = {}
        for n in scope:
            new = CHOSEN.get((p, n)) or CHOSEN.get(n) or snake(n)
            if is_name(n) and new != n:
                turned[n] = new
        scopes[p] = turned
        # what would fall together
        back = {}
        words = set()
        for line, clause in lines_of(p, t):
            code = line.split("--")[0] if p.endswith(".antt") else line.split("//")[0]
            if re.match(r"\s*(pub |ghost )*use ", code):
                u = USE.match(line)
                if u and u[3]:
                    words |= {w.split(" as ")[-1].strip() for w in u[3].split(",")}
                continue
            if p.endswith(".rt") and not clause:
                # parameters and fields
                words |= {w for w in re.findall(r"\b([a-z_0-9]+): ", code)}
                continue
            for w in TOKEN.finditer(code):
                if w.start() == 0 or code[w.start() - 1] != ".":
                    words.add(w[0])
        for n, new in turned.items():
            if new in words or new in back:
                said.append(f"{p}: {n} -> {new} falls together" + (f" with {back[new]}" if new in back else ""))
            back[new] = n

    everywhere = {}
    for m, names in own.items():
        for n in names:
            if is_name(n) and snake(n) != n:
                everywhere[n] = CHOSEN.get(n) or snake(n)

    def turn_line(line, turned, p, clause):
        antt = p.endswith(".antt")
        mark = "--" if antt else "//"
        at = -1
        k = line.find(mark)
        if k >= 0 and (k == 0 or line[k - 1] in " \t"):
            at = k
        code, note = (line[:at], line[at:]) if at >= 0 else (line, "")
        u = USE.match(line)
        if u:
            if u[3] is None:
                return line
            def item(it):
                lead = re.match(r"\s*", it)[0]
                word, _, name = it.strip().partition(" as ")
                if u[2] in own and word in own[u[2]]:
                    word = CHOSEN.get(word) or (snake(word) if is_name(word) else word)
                return lead + word + (" as " + name if name else "")
            return f"{u[1]}{u[2]}.{{{','.join(item(x) for x in u[3].split(','))}}}{u[5]}"
        def word(m):
            w = m[0]
            s = m.start()
            if s > 0 and code[s - 1] == ".":
                # behind a dot: a field, or a name of a module that goes by another
                return fields_map.get(w, w)
            if w in turned:
                return turned[w]
            if antt and w in VARIABLES:
                return VARIABLES[w]
            if antt and w in fields_map and (re.match(r"\s+pub " + re.escape(w) + " :", code) or re.match(r"\s*[=:]\s", code[m.end():]) ):
                return fields_map[w]
            return w
        if antt or clause:
            code = TOKEN.sub(word, code)
        note = re.sub(r"`([^`]+)`", lambda m: "`" + TOKEN.sub(lambda w: turned.get(w[0], everywhere.get(w[0], w[0])), m[1]) + "`", note)
        return code + note

    n = 0
    for p, t in files.items():
        if p.endswith(".edit"):
            lines, crate, scope = [], "/".join(p.split("/")[:2]), {}
            target = None
            for line in t.split("\n"):
                head = re.match(r"(file|old|new): (.*)$", line)
                if not head:
                    lines.append(line)
                    continue
                if head[1] == "file":
                    target = f"{crate}/{head[2].strip()}"
                    scope = scopes.get(target, {})
                    lines.append(line)
                else:
                    body = head[2]
                    if target and target.endswith(".rt"):
                        turned = turn_line(body, scope, target, bool(re.match(r"\s*(requires|ensures|ghost)\b", body)))
                    else:
                        turned = turn_line(body, scope, target or p, True)
                    lines.append(f"{head[1]}: {turned}")
            new = "\n".join(lines)
        else:
            new = "\n".join(turn_line(line, scopes[p], p, clause) for line, clause in lines_of(p, t)).replace("\r", "\n")
        if new != t:
            n += 1
            if not check:
                with open(os.path.join(root, p), "w", encoding="utf-8") as f:
                    f.write(new)
    print("\n".join(sorted(said)))
    print(f"{n} files, {len(everywhere)} names, {len(fields_map)} fields: {sorted(fields_map)}")


main()
