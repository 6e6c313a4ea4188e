#!/usr/bin/env python3
"""Brings the names of definitions and lemmas to snake case: tools/snake_names.py, once, at the top of the repository.

Every lower-case name that a .antt file of crates/ declares by a signature and that is spelled in camel case or with
dashes (readOf, settle-less) is written in snake case (read_of, settle_less), there and wherever it is used in clauses,
specs and proofs. Types, modules, Rust functions, and names that the check makes for steps and goals keep theirs.
Where a lemma would fall together with a definition it is named apart (APART).
With --show it prints the pairs and names that would fall together, and writes nothing.
"""

import os
import re
import sys

BREAK = r"\s(){}\[\];,.«»\"⌜⌝λ"
TOKEN = re.compile(rf"[^{BREAK}]+")
SIGNATURE = re.compile(rf"^\s*(?:abbrev |unfoldable |pub |private )*([^{BREAK}]+) :(?: (.*))?$")
FROM = re.compile(r"^(?:pub )?(?:ghost )?use ([^\s{]+)\.\{([^}]*)\}", re.M)
MADE = re.compile(r"^use Rattle\.\w+\.proofs\.\S*\.(?:Goals|Given)\.\{([^}]*)\}", re.M)

NONE = frozenset()

# names that would fall together with a definition's
APART = {
    "as-good": "as_good_not_better",
    "at-once": "at_once_shown",
    "does_at": "does_at_lem",
    "file-full": "file_full_answers",
    "filled_of": "filled_of_lem",
    "no-sale": "without_sale",
    "stop-runs": "stop_runs_tape",
}
LEMMAS = "above-all all-lawful as-buy as-sell can-fill clean-up first-is first-price is-filed same-side turn-of whole-lots without-first"
APART |= {name: name.replace("-", "_") + "_lem" for name in LEMMAS.split()}


def files(ending):
    for folder, dirs, names in os.walk("crates"):
        dirs[:] = sorted(d for d in dirs if d not in ("out", ".git"))
        for name in sorted(names):
            if name.endswith(ending):
                yield os.path.join(folder, name)


def read(path):
    with open(path, encoding="utf-8") as f:
        return f.read()


def snake(name):
    if name in APART:
        return APART[name]
    name = re.sub(r"(?<=[a-z0-9])([A-Z])", lambda m: "_" + m.group(1).lower(), name)
    return name.replace("-", "_")


def is_answers(path):
    return os.path.basename(path) in ("Answers.antt", "Invariants.antt")


def declared():
    """The lower-case names that the repository declares itself, but for the goals that it answers."""
    names = set()
    for path in files(".antt"):
        for line in read(path).splitlines():
            m = SIGNATURE.match(line)
            if m and m.group(1)[0].islower() and not (m.group(2) or "").startswith("goal."):
                names.add(m.group(1))
    return names


def turned(text, pairs, kept, is_code, has_steps):
    out, last = [], 0
    for m in TOKEN.finditer(text):
        name = m.group(0)
        if name not in pairs or name in kept:
            continue
        if "-" in name and (is_code and "ghost" not in line_of(text, m.start()) or has_steps and of_the_check(text, m.start())):
            continue
        out += [text[last : m.start()], pairs[name]]
        last = m.end()
    return "".join(out) + text[last:]


def of_the_check(text, at):
    """Whether a name is a field of what the check hands to an answer (c.step.field) or an invariant (l.x)."""
    chain = re.search(r"(?:[^\s(){}\[\];,]+\.)$", text[:at])
    return bool(chain) and chain.group(0).split(".")[0] in ("c", "l", "w", "goal")


def line_of(text, at):
    return text[text.rfind("\n", 0, at) + 1 : text.find("\n", at)]


def library_names(text, crates):
    """The names that a file brings in from outside the repository, as the library spells them."""
    names = set()
    for m in FROM.finditer(text):
        path = m.group(1).split(".")
        if path[0] != "Rattle" or path[1] not in crates:
            names |= {w.split(" as ")[0].strip() for w in m.group(2).split(",")}
    return names


def made_names(text):
    """The steps and goals that an answer file brings in: the check made them, and they keep their names."""
    names = {w.strip() for m in MADE.finditer(text) for w in m.group(1).split(",")}
    names |= {m.group(1) for m in map(SIGNATURE.match, text.splitlines()) if m and (m.group(2) or "").startswith("goal.")}
    return names | {""}


def main(argv):
    names = declared()
    pairs = {n: snake(n) for n in sorted(names) if snake(n) != n}
    together = {}
    for n, s in pairs.items():
        together.setdefault(s, set()).add(n)
        if s in names and s not in pairs:
            together[s].add(s)
    bad = {s: g for s, g in together.items() if len(g) > 1}
    if argv == ["--show"]:
        for n, s in pairs.items():
            print(n, s)
        for s, g in sorted(bad.items()):
            print("together:", s, *sorted(g))
        return 0
    crates = set(os.listdir("crates"))
    for path in [*files(".antt"), *files(".rt"), *files(".edit")]:
        text = read(path)
        kept = library_names(text, crates) | (made_names(text) if is_answers(path) else NONE)
        new = turned(text, pairs, kept, path.endswith((".rt", ".edit")), is_answers(path))
        if new != text:
            with open(path, "w", encoding="utf-8") as f:
                f.write(new)
    return 0


if __name__ == "__main__":
    raise SystemExit(main(sys.argv[1:]))
