#!/usr/bin/env python3
"""count.py [ROOT] [--list]: the places that docs/DESIGN-PASS.md counts, in the sources of all crates below ROOT.

Each point is counted by its form alone, so the lists hold places that stay for a reason too."""
import glob, os, re, sys

flags = [a for a in sys.argv[1:] if a.startswith("--")]
words = [a for a in sys.argv[1:] if not a.startswith("--")]
root = words[0] if words else "."
sources = {}
for path in sorted(glob.glob(f"{root}/crates/*/src/**/*.rt", recursive=True)):
    text = open(path).read()
    sources[os.path.relpath(path, root)] = re.sub(r"//[^\n]*", "", text)


def found(pattern, flags=re.M):
    """(file, what) of each match of a pattern."""
    for name, text in sources.items():
        for m in re.finditer(pattern, text, flags):
            yield name, m.group(1) if m.groups() else m.group(0)


def enums():
    """Enums of two or three variants of which one says that there is nothing, or holds a refusal."""
    for name, text in sources.items():
        for m in re.finditer(r"^(?:pub )?enum (\w+) \{\n(.*?)^\}", text, re.M | re.S):
            variants = re.findall(r"^    (\w+)([^\n]*)", m.group(2), re.M)
            if 2 <= len(variants) <= 3:
                empty = [v for v, rest in variants if rest.strip() == ","]
                holds = [v for v, rest in variants if rest.strip() != ","]
                refusal = [v for v, rest in variants if "Refusal" in rest or "Fault" in rest]
                if (len(empty) == 1 and holds) or refusal or set(v for v, _ in variants) == {"Filled", "Unset"}:
                    yield name, m.group(1)


def flagged():
    """Structs of a flag and the values that count only under it."""
    return found(r"^pub struct (\w+) \{\n(?:    pub \w+: [^\n]+\n)*?    pub all: ")


def kinds():
    """Constants that number a kind or stand for a missing value."""
    return found(r"^(?:pub )?const ([A-Z_]+): (?:u8|u64|i64|usize) = [\d_]+;")


def packed():
    """Functions that pack several answers into one number, or unpack them."""
    return found(r"^(?:pub )?fn (number_for|row_of|waiting_for|code|valued|worth|bare_letter|joined|is_kept|place|magnitude|months|summed|multiplied|greater|tested|scaled|added|either)\(")


def sized():
    """Functions that differ only in the length of what they hold on the stack."""
    return found(r"^(?:pub )?fn ((?:tiny|small|brief|short|long)_\w+)\(")


def loops():
    return found(r"^ +(while [^\n{]*|loop) \{")


def conversions():
    """Comparison, conversion and printing of values by functions of their own."""
    return found(r"^(?:pub )?fn (less|equal|magnitude|number_of|refusal_of|refusal|later_of|sooner_of|greater_of|capped|needed|wide|word|letter_byte|(?:plan|payoff|amount|test)_letter|truth|amount_of|value_of|told|evaluated|positive|negative|within|due|earlier|between|nearer|later)\(")


def together():
    """Functions that take settings, span, factors, bounds and values one by one, or the tables of a walk."""
    for name, text in sources.items():
        for m in re.finditer(r"^(?:pub )?(?:extern \"C\" )?fn (\w+)\(([^{]*?)\n?\)(?: ->|\n)", text, re.M | re.S):
            params = m.group(2)
            if "factors: &" in params and "bounds: &" in params or "nodes: &&" in params and "values: &&" in params:
                yield name, m.group(1)


def repeated():
    """Clauses that say one of the facts of a walk's tables again."""
    return found(r"^    requires \{[^\n]*\b(Readable|Kept|SpanIn|PairIn|InBounds|all_pairs|are_settings)\b")


def buffers():
    """Arrays with a depth or count beside them."""
    return found(r"let mut (stack) = \[")


def switches():
    return found(r"match (form) \{")


points = [
    ("1 own enums of the shape of Option or Result", enums),
    ("1 a flag beside values", flagged),
    ("1 constants that number kinds or stand for nothing", kinds),
    ("1 several answers packed in one number", packed),
    ("2 functions that differ in a size", sized),
    ("3 loops by `while` and `loop`", loops),
    ("4 comparison, conversion, printing by hand", conversions),
    ("5 parameters that travel together", together),
    ("5 facts repeated in clauses", repeated),
    ("6 arrays with a length beside", buffers),
    ("7 switches on which step to run", switches),
]
for title, places in points:
    places = list(places())
    print(f"{len(places):4}  {title}")
    if "--list" in flags:
        for name, what in places:
            print(f"        {name}: {what}")
lines = 0
answers = 0
for path in glob.glob(f"{root}/crates/*/proofs/**/*.antt", recursive=True):
    n = open(path).read().count("\n")
    lines += n
    if os.path.basename(path) == "Answers.antt":
        answers += len(re.findall(r"^pub [\w+'-]+ : goal\.", open(path).read(), re.M))
print(f"{answers:4}  8 answers in proofs")
print(f"{lines:4}  8 lines of proofs")
