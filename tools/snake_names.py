#!/usr/bin/env python3
"""Brings the repository's own definitions, lemmas, fields and variables of antt to snake case.

usage: python3 tools/snake_names.py [FOLDER]

A name in lower camel case gets underscores, as storageBounds storage_bounds, and a dash between two plain words becomes an
underscore, as count-is count_is. A dash beside a type's name stays, as in All-append, and so does a name that a file takes from a
library of the kit. Rust names, names that Rattle makes and quoted text stay. Names that would fall together stay as they are and
are told. Turned: the .antt files, the clauses and ghost items of the .rt files, and the .edit files below crates/; and code spans
of the .md files at the top, in docs/ and in examples/. Run it once, right after the kit's port.py.
"""
import collections
import os
import re
import sys

TOKEN = re.compile(r"[^\s(){}\[\];,.\"«»`:|/]+")
DECLARED = re.compile(r"^(?:(?:abbrev|unfoldable|pub) )*([^\s(){};,.]+) :(?= |$)", re.M)
FIELD = re.compile(r"^ +(?:pub )?([^\s(){};,.:]+) :(?= |$)", re.M)
USE = re.compile(r"^[ \t]*(?:ghost )?(?:pub )?use ([^\s{};]+)\.\{([^{}]*)\}", re.M)
CAMEL = re.compile(r"[a-z][A-Za-z0-9]*[a-z0-9][A-Z][A-Za-z0-9]*'*")


def files(root, ending, tops=("crates",)):
    for top in tops:
        for base, folders, names in os.walk(os.path.join(root, top)):
            folders[:] = sorted(f for f in folders if f not in ("out", "target", ".git"))
            for name in sorted(names):
                if name.endswith(ending):
                    yield os.path.join(base, name)


def read(path):
    with open(path, encoding="utf-8", newline="") as f:
        return f.read()


def snake(word):
    word = re.sub(r"([a-z0-9])([A-Z])", lambda m: m[1] + "_" + m[2].lower(), word)
    return word


def turned(name):
    """The name in the kit's spelling."""
    out = []
    for i, part in enumerate(name.split("-")):
        plain = re.fullmatch(r"[a-z0-9_'][A-Za-z0-9_']*", part) is not None
        if plain:
            part = snake(part)
        if i:
            out.append("_" if plain and before else "-")
        out.append(part)
        before = plain
    return "".join(out)


def own_names(root, crates):
    """What the files declare, and what they take from libraries."""
    own, library = set(), set()
    for path in files(root, ".antt"):
        text = read(path)
        code = re.sub(r"--[^\n]*", "", text)
        generated = os.path.basename(path) in ("Proof.antt", "Answers.antt", "Invariants.antt")
        if not generated:
            own.update(DECLARED.findall(code))
            own.update(FIELD.findall(code))
        own.update(CAMEL.findall(code))
        for where, names in USE.findall(code):
            parts = where.split(".")
            if not (parts[0] == "Rattle" and parts[1] in crates):
                for name in names.split(","):
                    library.add(name.split(" as ")[0].strip())
    for path in files(root, ".rt"):
        for where, names in USE.findall(read(path)):
            parts = where.split(".")
            if parts[0] == "Rattle" and parts[1] not in crates:
                library.update(name.split(" as ")[0].strip() for name in names.split(","))
    return own, library


# By hand: what would hide a parameter or fall together with another definition.
EXPLICIT = {"setAt": "aggregate_set_at", "magIs": "mag_given", "nodeRows-ok": "node_rows_ok", "in-order-at": "in_order_at"}
# Record fields and Rust's parameters of one name: a field stands behind a dot or before '=', so neither hides the other.
FIELDS = set(
    "col_lower col_upper col_obj_coef row_lower row_upper row_starts start_day start_month end_day end_month shared_by "
    "virtual_storages node_rows row_type row_count edge_columns virtual_storages_at".split()
)
# Lemmas that were in snake case already and would now have their definition's name, in these files alone.
LEMMAS = {
    "theorem_numbers/proofs/ElementBounds.antt": ["add_parts"],
    "theorem_costs/proofs/StoreCosts.antt": ["edge_order"],
    "theorem_costs/proofs/ColumnSums.antt": ["edge_order"],
    "network_record/proofs/RecordLaw.antt": ["in_order"],
    "theorem_refusals/proofs/NetworkNumbers.antt": ["in_order"],
    "build_makers/proofs/Entries.antt": ["made_by"],
    "build_makers/proofs/Making.antt": ["made_by"],
    "build_constants/proofs/ConstantRows.antt": ["node_row"],
    "build_constants/proofs/add_node_row/Proof.antt": ["node_row"],
    "build_sharers/proofs/Walk.antt": ["one_more"],
    "theorem_numbers/proofs/ProgrammeLaws.antt": ["same_row"],
    "pywr/proofs/SetLaws.antt": ["same_set"],
}
EDGE_COLUMNS = "build_node_row.specs.EdgeColumns.{edgeColumns}"


def table(root):
    crates = set(os.listdir(os.path.join(root, "crates")))
    own, library = own_names(root, crates)
    rows = {n: EXPLICIT.get(n, turned(n)) for n in own if n not in library or n in EXPLICIT}
    rows = {n: t for n, t in rows.items() if n != t}
    groups = collections.defaultdict(list)
    for name, new in rows.items():
        groups[new].append(name)
    for new, names in groups.items():
        for name in names:
            # the kit's rule: a lemma that would have its function's name gets _lem
            if name not in EXPLICIT and not CAMEL.fullmatch(name) and (len(names) > 1 or new in own or new in library):
                rows[name] = new + "_lem"
    return rows


def rows_for(path, text, rows):
    """The table for one file."""
    rows = dict(rows)
    for end, names in LEMMAS.items():
        if path.endswith("/crates/" + end):
            rows.update((n, n + "_lem") for n in names)
    if EDGE_COLUMNS in text or path.endswith("/build_node_row/specs/EdgeColumns.antt"):
        rows["edgeColumns"] = "edge_columns_of"
    return rows


def told(root, rows):
    """Tells of each name that would fall together with another in a file, and answers how many there are."""
    count = 0
    for path in list(files(root, ".antt")) + list(files(root, ".rt")):
        text = read(path)
        mine = rows_for(path, text, rows)
        if path.endswith(".rt"):
            words = set(re.findall(r"\b(\w+): ", text)) | set(re.findall(r"\bconst (\w+)", text))
            code = " ".join(re.sub(r"ghost use [^\s{};]+", "", part) for part, ghost in split_rt(text) if ghost)
        else:
            words = set()
            code = re.sub(r"^(\s*(?:pub )?use )[^\s{};]+", r"\1", re.sub(r'--[^\n]*|"(?:[^"\\\n]|\\.)*"', "", text), flags=re.M)
        together = collections.defaultdict(set)
        for word in set(TOKEN.findall(code)) | words:
            together[mine.get(word, word)].add(word)
        for new, olds in sorted(together.items()):
            if len(olds) > 1 and new not in FIELDS:
                print(f"look: {path}: {', '.join(sorted(olds))} would all be {new}")
                count += 1
    return count


def by_table(text, rows):
    def one(m):
        if m[0] == "edgeColumns" and text[m.start() - 1 : m.start()] == ".":
            return "edge_columns"
        return rows.get(m[0], m[0])

    return TOKEN.sub(one, text)


def antt(text, rows):
    """Code alone: strings stay, comments turn by their code spans and by words in camel case."""
    out, at = [], 0
    for m in re.finditer(r'"(?:[^"\\\n]|\\.)*"|--[^\n]*', text):
        out.append(by_table(text[at : m.start()], rows))
        out.append(m[0] if m[0][0] == '"' else comment(m[0], rows))
        at = m.end()
    out.append(by_table(text[at:], rows))
    return "".join(out)


def comment(text, rows):
    # what quotes a paper stays
    parts = re.split(r'("[^"]*")', text)
    words = {n: t for n, t in rows.items() if CAMEL.fullmatch(n)}
    turn = lambda s: re.sub(r"`[^`]*`", lambda m: by_table(m[0], rows), by_table(s, words))
    return "".join(p if p.startswith('"') else turn(p) for p in parts)


BLOCK = re.compile(r"(?:\b(?:requires|ensures)\*?(?: \w+)?|\bghost(?: \w+(?: :)?)?) \{")


USES = re.compile(r"^[ \t]*ghost use [^;]*;", re.M)


def split_rt(text):
    """The parts of a .rt file, each with whether it is antt."""
    at = 0
    while True:
        found = [m for m in (BLOCK.search(text, at), USES.search(text, at)) if m]
        if not found:
            yield text[at:], False
            return
        first = min(found, key=lambda m: m.start())
        end, depth = first.end(), 0 if first[0].endswith(";") else 1
        while depth:
            depth += {"{": 1, "}": -1}.get(text[end], 0)
            end += 1
        yield text[at : first.start()], False
        yield text[first.start() : end], True
        at = end


def rt(text, rows):
    return "".join(by_table(part, rows) if ghost else part for part, ghost in split_rt(text))


def edit(text, rows):
    lines = []
    file = ""
    for line in text.split("\n"):
        if line.startswith("file: "):
            file = line[6:]
        if re.match(r"(old|new): ", line) and file.endswith(".antt"):
            line = line[:5] + antt(line[5:], rows)
        elif re.match(r"(old|new): ", line):
            line = line[:5] + rt(line[5:], rows)
        lines.append(line)
    return "\n".join(lines)


def prose(text, rows):
    return re.sub(r"`[^`\n]+`", lambda m: by_table(m[0], rows), text)


def main():
    root = os.path.abspath(sys.argv[1] if len(sys.argv) > 1 else ".")
    rows = table(root)
    if told(root, rows):
        raise SystemExit("nothing was written")
    count = 0
    pages = [os.path.join(root, n) for n in sorted(os.listdir(root)) if n.endswith(".md")]
    pages += list(files(root, ".md", ("docs", "examples", "reference", "callers")))
    for kind, paths in ((antt, files(root, ".antt")), (rt, files(root, ".rt")), (edit, files(root, ".edit")), (prose, pages)):
        for path in paths:
            text = read(path)
            new = kind(text, rows_for(path, text, rows))
            if new != text:
                with open(path, "w", encoding="utf-8", newline="") as f:
                    f.write(new)
                count += 1
    print(f"{len(rows)} names turned in {count} files")


main()
