"""Counts the places in crates/*/src that docs/DESIGN-PASS.md speaks of, in the working tree or at a commit.

The patterns go by text, and tell where to look: what they find is read, and need be no place. Run it at the top of the repository.

    python3 tools/places.py            the counts
    python3 tools/places.py -l         each place too
    python3 tools/places.py [-l] COMMIT
"""

import collections
import enum
import pathlib
import re
import subprocess
import sys


class Kind(enum.Enum):
    """What is looked for, with the point of the page that it belongs to."""

    REFUSED_BY_BOOL = "1 a change that says by a bool whether it was refused"
    NUMBER_FOR_NONE = "1 a number that stands for none"
    FLAG = "1 a flag in a struct"
    BARE_NUMBERS = "1 a function that tells cases apart by bare numbers"
    CONSTANT_KINDS = "1 kinds that are constants of a number's type"
    TWIN = "2 a body of the shape of another"
    INDEX_LOOP = "3 a loop over a range that indexes by its number"
    INDEX_WHILE = "3 a while that counts an index"
    LOOP_FOR_A_RESULT = "3 a loop that looks for, tests or adds up"
    CASE_TABLE = "4 a match from cases to constants, or back"
    OWN_CONVERSION = "4 a comparison or a conversion in a function of its own"
    REPEATED_CLAUSE = "5 a clause that three or more functions have"
    TOGETHER = "5 parameters that travel together through three or more functions"
    LENGTH_BESIDE = "6 a table with its length or its front beside it"
    ONE_INDEX = "6 tables that go by one index"
    LOOP_BY_TEST = "7 a loop that differs from another in the test that it makes"


def git(*args):
    return subprocess.run(["git", *args], capture_output=True, text=True, check=True).stdout


def sources(commit):
    """The source files, as pairs of path and text."""
    if commit is None:
        names = git("ls-files", "crates/*/src/*.rt").split()
        return [(n, pathlib.Path(n).read_text(encoding="utf-8")) for n in names]
    names = [n for n in git("ls-tree", "-r", "--name-only", commit, "crates").split() if re.search(r"/src/.*\.rt$", n)]
    return [(n, git("show", f"{commit}:{n}")) for n in names]


def at(path, text, offset):
    return f"{path}:{text.count(chr(10), 0, offset) + 1}"


def bare(text):
    """The text with comments blanked, every offset as it was."""
    return re.sub(r"//[^\n]*", lambda m: " " * len(m.group()), text)


FUNCTION = re.compile(r"^( *)(?:pub(?:\([a-z]+\))? )?fn (\w+)", re.M)


def functions(path, text):
    """Each function: its place, its name, its head up to the body, its body."""
    for m in FUNCTION.finditer(text):
        indent = m.group(1)
        end = re.compile(rf"^{indent}(\}}|\{{\}})$", re.M).search(text, m.end())
        if not end:
            continue
        whole = text[m.start():end.end()]
        opened = re.search(rf"(?:^{indent}|(?<= ))\{{$", whole, re.M)
        split = opened.start() if opened else len(whole)
        yield at(path, text, m.start()), m.group(2), whole[:split], whole[split:]


def clauses(head):
    """The clauses of a function's head, without their labels."""
    out = []
    for m in re.finditer(r"^ *(requires|ensures)\*? ?(\w+ )?\{(.*?)\}\s*$", head, re.M | re.S):
        out.append((m.group(1), re.sub(r"\s+", " ", m.group(3)).strip()))
    return out


KEYWORDS = set(
    "as break const continue else enum false fn for if impl in let loop match mut pub ref return self Self static struct true use while "
    "Some None Ok Err".split()
)


def shape(body):
    """A body with every name but the language's own turned into one, and every number into another."""
    tokens = re.findall(r"[A-Za-z_]\w*|\d[\w.]*|\S", body)
    return " ".join(t if t in KEYWORDS or not re.match(r"\w", t) else ("0" if t[0].isdigit() else "x") for t in tokens)


def count(commit):
    found = {kind: [] for kind in Kind}

    def place(kind, where, what=""):
        found[kind].append((where, what))

    bodies = collections.defaultdict(list)
    facts = collections.defaultdict(list)
    groups = collections.defaultdict(list)
    alone = collections.Counter()
    for path, whole in sources(commit):
        text = bare(whole)
        for m in re.finditer(r"fn \w+\(&mut self[^)]*\) -> bool", text):
            place(Kind.REFUSED_BY_BOOL, at(path, text, m.start()), m.group())
        for m in re.finditer(r"(?:^|[^/])// ?.*\b(?:0|none) (?:where|past)\b.*|/// .*\b0 (?:where|past)\b.*|place: NO_PLACE|place: u32", whole):
            place(Kind.NUMBER_FOR_NONE, at(path, whole, m.start()), m.group().strip())
        for m in re.finditer(r"^ +(?:pub(?:\(crate\))? )?(\w+): bool,$", text, re.M):
            if "fn " not in text[max(0, m.start() - 200):m.start()].split("struct")[-1]:
                place(Kind.FLAG, at(path, text, m.start()), m.group().strip())
        runs = list(re.finditer(r"^pub const ([A-Z_]+): u8 = \d+;$", text, re.M))
        if len(runs) > 2:
            place(Kind.CONSTANT_KINDS, at(path, text, runs[0].start()), f"{len(runs)} of them")
        for m in re.finditer(r"\bfor (\w+) in [^{]*\.\.[^{]*\{", text):
            after = text[m.end():m.end() + 500]
            if re.search(rf"\[[^\]]*\b{m.group(1)}\b[^\]]*\]|\(\w+, {m.group(1)}\)|replace\([^)]*\b{m.group(1)}\b", after.split("\n    }\n")[0]):
                place(Kind.INDEX_LOOP, at(path, text, m.start()), m.group())
        for m in re.finditer(r"\bwhile [^{]*[<>][^{]*\{", text):
            place(Kind.INDEX_WHILE, at(path, text, m.start()), m.group())
        for m in re.finditer(r"\bfor (?!.*\.\.)[^{]*\{\n(?:[^\n]*\n)?[^\n]*(?:return|\+=)[^\n]*\n", text):
            place(Kind.LOOP_FOR_A_RESULT, at(path, text, m.start()), m.group().split("\n")[0])
        for m in re.finditer(r"match [^{]*\{\n((?: +[^\n]* => [^\n]*,\n)+) +\}", text):
            arms = m.group(1).strip().split("\n")
            constant = r"(?:-?\d+|\d+\.\.|_|'.'(?:\.\.='.')?|[A-Z]\w*(?:::[A-Z]\w*)+)"
            if len(arms) > 1 and all(re.fullmatch(rf" *{constant} => {constant},", a) for a in arms):
                place(Kind.CASE_TABLE, at(path, text, m.start()), f"{len(arms)} arms")
        for where, name, head, body in functions(path, text):
            arms = re.findall(r"^ +(?:-?\d+|[\w:]*\d*\.\.=?[-\w:]*)(?: if [^\n]*)? => ", body, re.M)
            if len(arms) > 1 or re.search(r"^ +0 => ", body, re.M):
                place(Kind.BARE_NUMBERS, where, f"{name}, {len(arms)} arms")
            plain = re.sub(r"\s+", " ", body).strip()
            if re.fullmatch(r"\{ (?:\w+ (?:==|!=) \w+|if \w+ \{ 1 \} else \{ 0 \}|\w+(?:\.\w+\(\w*(?: as \w+)?\))*(?:\.\w+)? as \w+) \}", plain):
                place(Kind.OWN_CONVERSION, where, name)
            form = shape(body)
            # a body of fewer words has a shape that says nothing
            if len(form.split()) >= 14:
                bodies[form].append((where, name))
            for kind, clause in clauses(head):
                # a short clause, as a bound on a parameter, is no fact worth a type
                if len(clause) > 12 and kind == "requires" or len(clause) > 40:
                    facts[clause].append((where, name))
            inside = re.search(r"fn \w+(?:<[^(]*>)?\((.*?)\)(?: ->|\s|$)", head, re.S)
            names = re.findall(r"(\w+): ", inside.group(1)) if inside else []
            for i, a in enumerate(names):
                alone[a] += 1
                for b in names[i + 1:]:
                    groups[(a, b)].append((where, name))
        for m in re.finditer(r"struct \w+[^{;]*\{(.*?)\n\}", text, re.S):
            fields = re.findall(r"(\w+): ([^\n]*),", m.group(1))
            tables = [n for n, t in fields if re.match(r"(?:&(?:'\w+ )?mut \[|\[.*;|Vec<)", t)]
            sizes = [n for n, t in fields if t == "usize"]
            if tables and sizes:
                place(Kind.LENGTH_BESIDE, at(path, text, m.start()), " ".join(tables + sizes))
            if len(tables) > 1:
                place(Kind.ONE_INDEX, at(path, text, m.start()), " ".join(tables))
    for form, where in bodies.items():
        if len(where) > 1:
            for w, n in where[1:]:
                place(Kind.TWIN, w, f"{n}, as {where[0][1]} ({where[0][0]})")
            if form.count("for ") and len(where) > 2:
                for w, n in where[1:]:
                    place(Kind.LOOP_BY_TEST, w, n)
    for clause, where in facts.items():
        if len({n for _, n in where}) > 2:
            place(Kind.REPEATED_CLAUSE, where[0][0], f"{len(where)} times: {clause}")
    for pair, where in groups.items():
        # together in three functions or more, and one of them seldom without the other
        if len(where) > 2 and "rt" not in pair and len(where) >= 0.8 * min(alone[n] for n in pair):
            place(Kind.TOGETHER, where[0][0], f"{len(where)} times: {', '.join(pair)}")
    return found


def main():
    words = [w for w in sys.argv[1:] if w != "-l"]
    found = count(words[0] if words else None)
    for kind, places in found.items():
        print(f"{len(places):4} {kind.value}")
        if "-l" in sys.argv:
            for where, what in places:
                print(f"       {where} {what}")


if __name__ == "__main__":
    main()
