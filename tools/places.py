#!/usr/bin/env python3
"""The places of each point of docs/DESIGN-PASS.md in the sources of a checkout: `tools/places.py [-v] [FOLDER]`. With -v each place."""
import collections
import glob
import re
import sys

verbose = "-v" in sys.argv
top = next((a for a in sys.argv[1:] if a != "-v"), ".")
files = sorted(glob.glob(f"{top}/crates/*/src/**/*.rt", recursive=True))


def lines():
    for f in files:
        for number, line in enumerate(open(f), 1):
            yield f[len(top) + 1:], number, line.rstrip("\n")


def show(name, places):
    print(f"{name}: {len(places)}")
    if verbose:
        for place in places:
            print(f"    {place}")


def matching(pattern):
    return [f"{f}:{n}: {l.strip()}" for f, n, l in lines() if re.search(pattern, l) and not l.strip().startswith("//")]


# 1
show("1a an enum, all variants of which are those of Option or Result under other names", matching(r"^\s*(pub )?enum (Test|Answer)\b"))
show("1b a field that says whether the call was accepted, beside what it gave", matching(r"^\s*(pub )?(answer|test|code): (Answer|Test|u64),"))
show("1c a way out by such an enum", matching(r"let (Answer::Whole|Test::Passed) = "))
show("1d a kind as a number", matching(r"\bkind\b.*(==|<) \d|let kind = \w+ %"))
ends = [m for f in files if "/probe_" in f
        for m in re.findall(r"else \{\n\s*[01]\n|^\s*_ => [01],", open(f).read(), re.M)]
show("1e a number that stands for a refusal, or for none", matching(r"\breturn (REFUSED_LENGTH|[01]);|^\s*2 \* depth$") + ends)

# 2: functions whose heads and bodies are the same but for a type, a size, a constant or what they call
families = [
    r"words byte\d\b", r"words (word_at|double_word_at|block_at|columns_at)\b", r"words (put_word|put_double_word|put_block)\b",
    r"words (reversed_word|reversed_double_word)\b", r"words (word_of|double_word)\b", r"tree (be4|be8)\b", r"split (plan|plan_in)\b",
    r"steps (no_buffer|no_ranges)\b", r"steps (buffer_sum|ranges_sum)\b", r"hostile (step|step_in)\b", r"split_steps (all|of_each)\b",
    r"histories (run|run_on)\b", r"cmac (tag|tag_block)\b", r"card (path|pairs|all)\b", r"cipher (mixed|unmixed)\b", r"cipher (whole|last)\b",
]
heads = [(f"{f}:{n}: {l.strip()}", f.split("/")[1], m.group(1)) for f, n, l in lines()
         if (m := re.match(r"\s*(?:pub(?:\(crate\))? )?(?:extern \"C\" )?fn (\w+)", l))]


def heads_of(crate):
    return [p for p, c, _ in heads if c == crate]


# card's three walks are lists of nodes where one function goes over them
twins = []
for family in families:
    crate, pattern = family.split(" ", 1)
    found = [p for p, c, name in heads if c == crate and re.fullmatch(pattern.replace(r"\b", ""), name)
             and not re.search(r"/(within|view|refuse|wipe)\.rt", p)]
    if len(found) > 1 and not (crate == "card" and "fn each" in "".join(heads_of(crate))):
        twins += found
if any("flip.rt" in p and "fn read" in p for p, _, _ in heads):
    twins += [p for p, _, name in heads if "flip.rt" in p and name in ("read", "check")]
show("2a a function that has a twin", twins)
pairs = collections.Counter()
for f in files:
    for m in re.finditer(r"struct (\w+)(?:<[^>]*>)? \{\n((?:    .*\n)*?)\}", open(f).read()):
        fields = re.findall(r"^    (?:pub )?(\w+): ", m.group(2), re.M)
        if "count" in fields and len(fields) in (2, 3) and m.group(1) not in ("Context", "Counted") or fields == ["start", "end"]:
            pairs[(f[len(top) + 1:], m.group(1))] += 1
show("2b a struct of something and its count, or of a start and an end", [f"{f}: {n}" for f, n in pairs])

# 3
show("3 a loop that counts an index by hand", matching(r"^\s*while "))

# 4
show("4a equality, a copy or a conversion that a derive, From or std has",
     [p for p, c, name in heads if (c, name) in {("words", "equal"), ("words", "split"), ("words", "joined"), ("words", "bytes_of"),
      ("words", "xored"), ("probe", "key_of"), ("steps", "wide"), ("vectors", "digits"), ("vectors", "digit"),
      ("tree", "number"), ("tree", "node_of"), ("words", "reversed_word"), ("words", "reversed_double_word"), ("words", "word_of")}])
show("4b a literal that repeats a field's name", matching(r"^\s*(\w+): \1,$"))
copied = []
for f in files:
    text = open(f).read().split("\n")
    for number, line in enumerate(text):
        if m := re.match(r"(\s*)let (\w+) = \w+\.\2;", line):
            rest = "\n".join(text[number + 1:]).split("\n}")[0].split("\n    }\n\n")[0]
            if len(re.findall(rf"\b{m.group(2)}\b", rest)) < 2:
                copied.append(f"{f[len(top) + 1:]}:{number + 1}: {line.strip()}")
show("4c a field copied to a local that is used once", copied)

# 5
facts = collections.Counter()
for f, n, l in lines():
    if re.match(r"\s*requires", l):
        for fact in re.findall(r"Is(?:Table|RoundTable|SBox|Node|Card|Depth)\b|(?:index|block)\.0 < 2 \^|depth(?:\.levels)? ≤ 16|levels ≤ 6"
                               r"|length (?:block|key)\.\w+ ≡ \d+|length messages\.\w+ ≡ \w+|length bytes\.\w+ ≡ \w+|first_failing|< 2 \^ 64", l):
            facts[fact] += 1
show("5a a fact in the `requires` of three functions or more",
     [f"{fact} in {k} contracts" for fact, k in sorted(facts.items()) if k >= 3])
show("5b a parameter that goes with two others", matching(r"\btable: &\[u8; 2048\]|\bschedule: &'a|\bsubkeys: &'a"))

# 6
show("6 a buffer with its length beside it, a span, or parallel arrays", matching(r"\[0\.\.(len|lent|short|end)\]|struct Span"))

# 7
show("7 a switch on which step to run", matching(r"if kind (==|<) \d"))
