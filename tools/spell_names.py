#!/usr/bin/env python3
"""Brings the repository's own definitions and lemmas to one spelling: words in snake case.

usage: python3 tools/spell_names.py [--map FILE]      at the top of the repository, once, right after the toolchain's port.py

A name that begins with a capital is a type or a module and stays. Any other name that the repository's .antt files declare or bind loses its dashes and
its humps: `length-bytesOf` is `length_bytes_of`. Names of the library, and names that the checker makes, stay. In .rt files the names that clauses import
are turned, and no function. Where two names of one file would fall together the script stops; CLASHES says how those that do were told apart.
"""
import os
import re
import sys

WORD = r'[^\s(){}\[\].;,@"«»]+'
HUMP = re.compile(r"(?<=[a-z0-9])[A-Z]")
DECLARED = re.compile(r"^( *)((?:abbrev |unfoldable |pub )*)(" + WORD + r")(?: \{[^{}]*\})* :(?=\s|$)")
USE = re.compile(r"^((?:ghost )?(?:pub )?use )([^\s;{]+?)(?:\.\{([^}]*)\}|( as \S+))?(;?)$")
MADE = re.compile(r"\.(Tie|Goals|Given|Statement|Reads|Kinds|Lts-\w+)$")
LIBRARY = re.compile(r"^(mathlib|Prim|native|lib|borrow|denote|mir|base|sep|Rattle\.(std|core|io|os|libc|std_alloc|std_heap|std_io|std_collections))\b")

# Names of one file that would fall together, and their new names: a lemma that would have its function's name ends in `_lem`.
CLASHES = set(
    """
aes-circuit base-figures chi-mask evenMansour-circuit first-bytes given-inputs given-inverses given-key head-sizes inverse-offsets is-root key-offset
    message-limit next-key opened-bytes opening-checked product-offsets put-mid row-sizes sbox-outputs scheduleFree-figures short-figures
    signature-checked stated-row sum-xor tabled-row third-part true-inverses work-length
    """.split()
)


# The same where port.py had taken the lemma's dash already: by file.
CLASHES_IN = {
    "crates/check_signature/proofs/Execution.antt": {"first_part"},
    "crates/key_schedule/proofs/next_key/Proof.antt": {"next_word"},
    "crates/share_check/proofs/Rows.antt": {"made_row"},
}


def plain(name):
    """The plain spelling of a name."""
    if not re.match(r"[a-zα-ω]", name):
        return name
    words = HUMP.sub(lambda m: "_" + m[0].lower(), name).replace("-", "_")
    return words + "_lem" if name in CLASHES else words


def below(top, ends):
    for folder, folders, files in os.walk(top):
        folders[:] = sorted(f for f in folders if f not in ("out", "target", ".git"))
        for f in sorted(files):
            if f.endswith(ends):
                yield os.path.join(folder, f)


def module_of(path):
    """crates/c/specs/M.antt is Rattle.c.specs.M."""
    return "Rattle." + path[len("crates/"):-len(".antt")].replace("/", ".")


def names_in(braces):
    return [it.split(" as ") for it in re.split(r"\s*,\s*", braces.strip()) if it]


def of_antt(path, text):
    """Returns what a file declares, what it takes from the library, its own modules' aliases and the fields of its records."""
    library, aliases, declared, fields, record = set(), set(), set(), set(), None
    for line in text.split("\n"):
        code = line.split("-- ")[0] if line.lstrip().startswith("--") else line
        use = USE.match(code)
        if use:
            if LIBRARY.match(use[2]):
                for it in names_in(use[3] or ""):
                    library.add(it[-1])
            elif not use[3] and not MADE.search(use[2]):
                aliases.add((use[4] or " as " + use[2].split(".")[-1])[4:])
            continue
        if re.match(r" *(pub )?record ", code):
            record = len(code) - len(code.lstrip())
            continue
        found = DECLARED.match(code)
        if found:
            if record is not None and len(found[1]) <= record:
                record = None
            declared.add(found[3])
            if record is not None:
                fields.add(found[3])
    return library, aliases, declared, fields


def turned(text, at, name, own):
    """The new spelling of one word, which begins at `at` of the line, or None where it stays."""
    before = text[:at]
    behind = re.search(r"((?:" + WORD + r"\.)+)$", before)
    if before.endswith(")."):
        return plain(name) if name in own["fields"] else None
    if behind:
        head = behind[1][:-1]
        if head.startswith("Rattle."):
            return plain(name) if not LIBRARY.match(head) and not re.search(r"\.(Tie|Goals|Given|Statement|Reads|Kinds)\b", head) and "specs.declared" not in head else None
        if head in own["aliases"]:
            return plain(name)
        return plain(name) if name in own["fields"] else None
    if name in own["library"] or name in own["keep"]:
        return None
    return plain(name)


def turn_line(line, own):
    def one(m):
        name = m[0]
        if name in own["here"]:
            return name + "_lem"
        new = turned(line, m.start(), name, own)
        return name if new is None else new

    use = USE.match(line)
    if use:
        if LIBRARY.match(use[2]) or MADE.search(use[2]):
            return line
        if not use[3]:
            return line
        items = ", ".join(" as ".join(plain(n) for n in it) for it in names_in(use[3]))
        return f"{use[1]}{use[2]}.{{{items}}}{use[5]}"
    return re.sub(WORD, one, line)


def comment(line, names):
    return re.sub(r"[\w'-]+", lambda m: plain(m[0]) if m[0] in names else m[0], line)


def keep_of(path, text):
    """In a function's proof: the names that the checker asks for, whose types it makes."""
    if not re.search(r"/proofs/[^/]+/[^/]+\.antt$", path):
        return set()
    return {m[3] for l in text.split("\n") for m in [DECLARED.match(l)] if m and re.match(r"\s*(tie|goal)\.", l[m.end():])}


def main(argv):
    antt = {p: open(p, encoding="utf-8").read() for p in below("crates", ".antt")}
    rust = {p: open(p, encoding="utf-8").read() for p in below("crates", ".rt")}
    seen = {p: of_antt(p, t) for p, t in antt.items()}
    fields = set().union(*(it[3] for it in seen.values()))
    names = {n for it in seen.values() for n in it[2] if plain(n) != n}
    bad = 0
    table = {}
    for p, text in antt.items():
        library, aliases, declared, _ = seen[p]
        own = {"library": library, "aliases": aliases, "fields": fields, "keep": keep_of(p, text), "here": CLASHES_IN.get(p, set())}
        out = []
        fell = {}
        for line in text.split("\n"):
            if line.lstrip().startswith("--"):
                out.append(comment(line, names))
                continue
            new = turn_line(line, own)
            path = re.compile(r"^((?:pub )?use )[^\s{]+")
            for a, b in zip(re.findall(WORD, path.sub("", line)), re.findall(WORD, path.sub("", new))):
                fell.setdefault(b, set()).add(a)
            out.append(new)
        for b, olds in sorted(fell.items()):
            # A name that was plain before is a function or a step of the checker's there, and is told apart by where it stands.
            if len(olds - {b}) > 1 or len(olds) > 1 and b in declared | library:
                bad += 1
                print(f"clash: {p}: {b}: {' '.join(sorted(olds))}")
        for n in declared:
            table[module_of(p), n] = plain(n)
        antt[p] = "\n".join(out)
    for p, text in rust.items():
        # Only what clauses cite: imports of the repository's own modules.
        taken, aliases, fell = set(), set(), {}
        for line in text.split("\n"):
            use = USE.match(line)
            if use and line.startswith("ghost") and not LIBRARY.match(use[2]):
                for it in names_in(use[3] or ""):
                    taken.add(it[-1])
                if not use[3]:
                    aliases.add((use[4] or " as " + use[2].split(".")[-1])[4:])
        out = []
        for line in text.split("\n"):
            if line.startswith("ghost use"):
                out.append(turn_line(line, {"library": set(), "aliases": aliases, "fields": fields, "keep": set(), "here": set()}))
                continue
            code, mark, said = line.partition("//")

            def one(m):
                n = m[0]
                before = code[:m.start()]
                if n in taken and not before.endswith("."):
                    return plain(n)
                head = re.search(r"([\w]+)\.$", before)
                if head and head[1] in aliases or before.endswith(").") and n in fields or head and n in fields and plain(n) != n:
                    return plain(n)
                return n

            new = re.sub(r"[\w'₀-₉-]+", one, code)
            out.append(new + mark + (comment(said, names) if mark else ""))
        rust[p] = "\n".join(out)
    if bad:
        print(f"{bad} clashes: nothing was written")
        return 1
    for p, text in {**antt, **rust}.items():
        with open(p, "w", encoding="utf-8") as f:
            f.write(text)
    if argv[:1] == ["--map"]:
        with open(argv[1], "w", encoding="utf-8") as f:
            for (m, n), new in sorted(table.items()):
                f.write(f"{m}\t{n}\t{new}\n")
    print(f"{sum(1 for (m, n), new in table.items() if n != new)} names respelled")
    return 0


if __name__ == "__main__":
    raise SystemExit(main(sys.argv[1:]))
