#!/usr/bin/env python3
"""Brings the repository's own definitions and lemmas to the spelling of today's library: words in snake case.

usage: python3 tools/respell.py     at the top of the repository, once, after port.py and before any edit by hand

Definitions, constructors, fields and variables lose their inner capitals (`stateOf` becomes `state_of`), lemmas their dashes
(`always-room` becomes `always_room`). What keeps its spelling: the kernel's names for numbers (CEC-MODE-FOLLOWER, so that they
differ from the constants of src/), names of the library, and names that Rattle makes for the goals of a function. Where two
names fall together the lemma gets `_lem`. The definition `result` of an entry becomes `result_entry`, since a clause calls the
returned value `result`.
"""
import os
import re

KIT = "/opt/rattle/rattle"
WORD = re.compile(r"[^\s(){}\[\],;.«»∷|`⌜⌝]+")
CAMEL = re.compile(r"(?<![\w'·])([a-z]\w*)")
DEFINED = re.compile(r"(\s*)((?:(?:pub|abbrev|unfoldable|data|record|module)\s+)*)([\w'·-]+)(\s+[({].*)?\s*:(?!=)")
COMMENT = {".antt": "--", ".rt": "//"}


def snake(x):
    return re.sub(r"(?<=[a-z0-9])([A-Z])", lambda m: "_" + m.group(1).lower(), x)


def files():
    for root, dirs, names in os.walk("crates"):
        dirs[:] = sorted(d for d in dirs if d != "out")
        for n in sorted(names):
            if n.endswith((".antt", ".rt", ".edit")):
                yield os.path.join(root, n)


def library_words():
    words = set()
    for folder in ("logic", "antt/lib", "core", "std", "std_alloc", "std_io"):
        for root, _, names in os.walk(os.path.join(KIT, folder)):
            for n in names:
                if n.endswith(".antt"):
                    with open(os.path.join(root, n), encoding="utf-8", errors="replace") as f:
                        words.update(re.findall(r"(?m)^\s*(?:pub )?([\w'·-]+) :", f.read()))
    return words


def is_proof_of_function(path):
    return path.endswith("Proof.antt")


def lemma_names(texts):
    """The repository's own names with a dash, and every word that stands somewhere already."""
    own, words = set(), set()
    for path, text in texts.items():
        if not path.endswith(".antt"):
            continue
        code = re.sub(r"--.*", "", text)
        words.update(WORD.findall(code))
        if is_proof_of_function(path):
            continue
        for line in code.split("\n"):
            m = DEFINED.match(line)
            if m and "-" in m.group(3) and not re.match(r"[A-Z][A-Z0-9]+-", m.group(3)):
                own.add(m.group(3))
    return own, words


def split_comment(line, mark):
    i = line.find(mark)
    return (line, "") if i < 0 else (line[:i], line[i:])


def in_ticks(text, turn):
    return re.sub(r"`[^`]*`", lambda m: turn(m.group(0)), text)


def main():
    texts = {}
    for p in files():
        with open(p, encoding="utf-8") as f:
            texts[p] = f.read()
    own, words = lemma_names(texts)
    own -= library_words()
    taken = {snake(w) for w in words}
    turned = {}
    for name in sorted(own):
        new = snake(name).replace("-", "_")
        while new in taken or new in turned.values():
            new += "_lem"
        turned[name] = new
    # words that port.py has already respelled, and that fall together with a definition
    together = {"all_results": "all_results_lem", "goes_on": "goes_on_lem", "has_room": "has_room_lem", "in_order": "in_order_lem", "heard_all": "heard_all_lem", "by_left": "by_left_lem", "by_right": "by_right_lem"}

    def names(text):
        def word(m):
            w, before = m.group(0), text[m.start() - 1] if m.start() else " "
            if w in turned and (before != "." or w in fields):
                return turned[w]
            return w

        return WORD.sub(word, text)

    fields = set()
    homes = {name: set() for name in together}
    for path, text in texts.items():
        if not path.endswith(".antt") or is_proof_of_function(path):
            continue
        for line in text.split("\n"):
            m = DEFINED.match(line)
            if m and m.group(1):
                fields.add(m.group(3))
            if m and m.group(3) in homes:
                parts = path.split("/")
                homes[m.group(3)].add((path, "Rattle." + parts[1] + "." + ".".join(parts[2:])[: -len(".antt")]))
    for path, text in texts.items():
        ext = os.path.splitext(path)[1]
        entry = "entry.specs.Entry.{" in text or "entry·specs" in text or path.endswith("entry/specs/Entry.antt") or path.endswith("entry/src/lib.rt")
        here = [name for name in together if defines_or_imports(path, text, name, homes[name])]
        out = []
        for line in text.split("\n"):
            if ext == ".edit":
                out.append(CAMEL.sub(lambda m: snake(m.group(1)), names(line)) if line.startswith(("old: ", "new: ")) else line)
                continue
            code, comment = split_comment(line, COMMENT[ext])
            if ext == ".antt":
                for old in here:
                    code = re.sub(r"(?<![\w.'-])" + old + r"(?![\w'-])(?!\.)", together[old], code)
                code = names(code)
                if entry:
                    code = re.sub(r"(?<![\w.'«-])result(?![\w'»-])(?! [=:]| ↦)", "result_entry", code) if " result" in code or "(result" in code or "{result" in code else code
            code = CAMEL.sub(lambda m: snake(m.group(1)), code)
            if ext == ".rt":
                m = re.match(r"(\s*)ensures\* \{ λ r\. ⌜ r ≡ (.*) ⌝ \}$", code)
                if m:
                    code = m.group(1) + "ensures { result ≡ " + re.sub(r"^result(?= )", "result_entry", m.group(2)) + " }"
                if entry and code.startswith("ghost use Rattle.entry.specs.Entry"):
                    code = re.sub(r"(?<![\w])result(?![\w])", "result_entry", code)
            comment = in_ticks(comment, lambda t: CAMEL.sub(lambda m: snake(m.group(1)), names(t)))
            out.append(code + comment)
        new = "\n".join(out)
        if ext == ".antt" and path.endswith("entry/specs/Entry.antt"):
            new = new.replace("abbrev pub result :", "abbrev pub result_entry :")
        if new != text:
            with open(path, "w", encoding="utf-8") as f:
                f.write(new)
    for old, new in sorted(turned.items()):
        if new.endswith("_lem"):
            print(f"fell together: {old} is now {new}")


def defines_or_imports(path, text, name, homes):
    """Whether a file defines the lemma of that name, or imports it from a file that does."""
    for home, module in homes:
        if path == home:
            return True
        for line in text.split("\n"):
            if line.startswith("use " + module + ".{") and re.search(r"(?<![\w'-])" + name + r"(?![\w'-])", line):
                return True
    return False


if __name__ == "__main__":
    main()
