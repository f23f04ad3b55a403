#!/usr/bin/env python3
"""Brings the repository's own names to today's spelling, once, after port.py: definitions and lemmas in snake case, as
tools/respelled-names.txt lists them; `came x` and `left x` of a lent buffer as `x.now`, `x.old` and `x.new`; and the texts of the
must-fail edits to what port.py and this script made of the lines that they change. Run at the top: python3 tools/respell.py"""
import glob
import re

TOKEN = re.compile(r"[^\s(){}\[\];,.\"«»`]+")
NAMES, LEMMAS = {}, {}
with open("tools/respelled-names.txt", encoding="utf-8") as table:
    for line in table:
        if line.strip() and not line.startswith("#"):
            words = line.split()
            if len(words) == 2:
                NAMES[words[0]] = words[1]
            else:
                # a name that is taken by another one in that file alone
                LEMMAS.setdefault(words[2], {})[words[0]] = words[1]


def named(text, names):
    return TOKEN.sub(lambda at: names.get(at[0], at[0]), text)


def in_quotes(text, names):
    """Words of a comment or a page: those between back quotes alone."""
    return re.sub(r"`[^`\n]*`", lambda at: named(at[0], names), text)


def antt(text, path):
    names = dict(NAMES, **LEMMAS.get(path, {}))
    lines = []
    for line in text.split("\n"):
        code, dashes, comment = line.partition("-- ")
        if code and not code.endswith((" ", "(")):
            code, dashes, comment = line, "", ""
        lines.append(named(code, names) + dashes + in_quotes(comment, names))
    return "\n".join(lines)


def lent(head, words):
    """In a function's head `came s` is `s.now` of a `&` and `s.old` of a `&mut`; `left s` is `s.new`; and `tables_in c t` speaks of both."""
    changed = set(re.findall(r"\b([a-z_0-9]+): &(?:'[a-z]+ )?mut ", head))

    def spelled(at):
        return at[2] + (".new" if at[1] == "left" else ".old" if at[2] in changed else ".now")

    begin = re.search(r"\b(requires|ensures)\b", head)
    if not begin or not words:
        return head
    word = "|".join(sorted(words & {"came", "left"})) or "came"
    clauses = re.sub(rf"\(({word}) ([a-z_0-9]+)\)", spelled, head[begin.start() :])
    clauses = re.sub(rf"\b({word}) ([a-z_0-9]+)", spelled, clauses)
    if "tables_in" in words:
        clauses = re.sub(r"\btables_in ([a-z_0-9]+) ([a-z_0-9]+)", r"tables_of \1.now \2.now", clauses)
    return head[: begin.start()] + clauses


def rust(text):
    out = []
    for part in re.split(r"(\"(?:[^\"\\]|\\.)*\"|//[^\n]*)", text):
        out.append(in_quotes(part, NAMES) if part.startswith("//") else part if part.startswith('"') else named(part, NAMES))
    text = "".join(out)
    words = {it for names in re.findall(r"^ghost use Rattle\.(?:lists|tables)\.specs\.Lent\.\{([^}]*)\};$", text, flags=re.M) for it in names.split(", ")}
    head = r"^([^\n]*\bfn [a-z_0-9]+[^{;]*?(?:\n +(?:requires|ensures)[^\n]*(?:\n {5,}[^\n]*)*)+)"
    text = re.sub(head, lambda at: lent(at[0], words), text, flags=re.M)
    if "tables_in" in words:
        line = re.search(r"^ghost use Rattle\.tables\.specs\.Tables\.\{([^}]*)\};$", text, flags=re.M)
        if not line:
            text = text.replace("ghost use Rattle.tables.specs.Lent.", "ghost use Rattle.tables.specs.Tables.{tables_of};\nghost use Rattle.tables.specs.Lent.", 1)
        elif "tables_of" not in line[1].split(", "):
            text = text.replace(line[0], line[0].replace("}", ", tables_of}"))
    return re.sub(r"^ghost use Rattle\.(?:lists|tables)\.specs\.Lent\.\{[^}]*\};\n", "", text, flags=re.M)


OPERATOR = re.compile(r"[→≡≢+×*∷∙⊎↔<≤=:,;λ^%/{}\[\]|¬-]+|\+\+|mod|in|let|if|then|else")


def tight(line):
    """A field of an application stands behind its parentheses, and a field of one name right behind it: `f x .y` is `(f x).y`."""
    tokens = re.findall(r"[()]|[,;]|\s+|[^\s(),;]+", line)
    at = 0

    def level(closing):
        nonlocal at
        out, run = [], []

        def flush():
            out.extend(run)
            run.clear()

        while at < len(tokens):
            token = tokens[at]
            at += 1
            if token == "(":
                inside = level(")")
                depth, alone = 0, True
                for it in inside[:-1] if inside.startswith("(") else "":
                    depth += (it == "(") - (it == ")")
                    alone = alone and (depth > 0 or it in ".)" or it.isalnum() or it in "_-")
                one = re.fullmatch(r"[A-Za-z_][\w'-]*(?:\.[\w-]+)+", inside) or (alone and re.fullmatch(r"\(.*\)\.[\w-]+", inside))
                run.append(inside if one else f"({inside})")
            elif token == ")":
                break
            elif re.fullmatch(r"\.[A-Za-z0-9][\w-]*", token):
                atoms = [it for it in run if it.strip()]
                if len(atoms) == 1:
                    lead = run[: run.index(atoms[0])]
                    run[:] = lead + [atoms[0] + token]
                elif atoms:
                    lead = run[: run.index(atoms[0])]
                    run[:] = lead + ["(" + "".join(run[len(lead) :]).rstrip() + ")" + token]
                else:
                    run.append(token)
            elif OPERATOR.fullmatch(token) or token.endswith("."):
                flush()
                out.append(token)
            else:
                run.append(token)
        flush()
        return "".join(out)

    return level("")


def edit_line(line, path, crate):
    """What port.py makes of one line, for the forms that the edits have."""
    line = re.sub(r"Rattle·([a-z_0-9]+)(?:·specs)?\.specs\.", r"Rattle.\1.specs.", line)
    line = line.replace("the-variants", "TheVariants")
    if path.startswith("src/"):
        line = re.sub(r"\{ λ ([a-z]+)\. ⌜ (.*?) ⌝ \}", lambda at: "{ " + re.sub(rf"(?<![\w.]){at[1]}(?![\w'])", "result", at[2]) + " }", line)
        line = line.replace("⌜ ", "").replace(" ⌝", "")
    if line.count("(") == line.count(")") and (not path.startswith("src/") or re.match(r" +(requires|ensures)", line)):
        line = tight(line)
    elif not path.startswith("src/"):
        line = re.sub(r"(?<=[\w')]) \.(?=[A-Za-z0-9])", ".", line)
    for old, new in EDIT_WORDS:
        line = re.sub(rf"(?<![\w.-]){re.escape(old)}(?![\w-])", new, line)
    if path.startswith("src/"):
        return named(line, NAMES)
    return antt(line, f"crates/{crate}/{path}")


# Words that port.py gives their new names everywhere.
EDIT_WORDS = [("getD", "get_or"), ("bitXor", "bit_xor"), ("bitAnd", "bit_and"), ("bitOr", "bit_or"), ("le-trans", "le_trans"), ("imageOf", "image_of"),
    ("pairOf", "pair_of"), ("countOf", "count_of"), ("inRange", "in_range"), ("wordIn", "word_in"), ("natAbs", "nat_abs"), ("by-default", "by_default")]


def edit(text, crate):
    out, path = [], ""
    for line in text.split("\n"):
        if line.startswith("file: "):
            path = line[6:].strip()
        elif line.startswith(("old: ", "new: ")):
            line = line[:5] + edit_line(line[5:], path, crate)
        elif line.startswith("#"):
            line = in_quotes(line, NAMES)
        out.append(line)
    return "\n".join(out)


def rewritten(path, turn):
    with open(path, encoding="utf-8") as it:
        text = it.read()
    new = turn(text)
    if new != text:
        with open(path, "w", encoding="utf-8") as it:
            it.write(new)


def main():
    for path in sorted(glob.glob("crates/*/**/*.antt", recursive=True)):
        if "/out/" not in path:
            rewritten(path, lambda text, path=path: antt(text, path))
    for path in sorted(glob.glob("crates/*/src/**/*.rt", recursive=True)):
        rewritten(path, rust)
    for path in sorted(glob.glob("crates/*/must-fail/*.edit")):
        rewritten(path, lambda text, path=path: edit(text, path.split("/")[1]))
    for path in ["README.md"] + sorted(glob.glob("docs/**/*.md", recursive=True)):
        rewritten(path, lambda text: in_quotes(text, NAMES))


if __name__ == "__main__":
    main()
