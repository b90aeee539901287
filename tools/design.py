#!/usr/bin/env python3
"""design: the places of docs/DESIGN-PASS.md's points in crates/*/src, point by point.

From the top:  tools/design.py [POINT]     with a point, its places; without, their counts alone
"""
import glob, re, sys

# a point's kinds of places: a name and what a line of it looks like
LINES = {
    1: [
        ("a variant of an own enum that says nothing, or that all is well", r"^    (Done|Nothing|Other|Good|None),"),
        ("a variant that carries only what went wrong", r"^    Broken\("),
        ("a flag or an answer in a struct, with a value beside it", r"^    (pub )?(ok|more|going|stepwise): bool|^    pub answer: |^    pub arrived: "),
        ("0 for none, or a number for a kind, as the comment says", r"^// .*(, or 0\b|\bor 0\.|\b0 for |\b0 where |, or 0 as|, 0 where|plus 1 or 0|number of the order|stage of the text|from 4,294,967,296)"),
        ("a number tested for being the answer done, or none", r"is_done\(|\b(p|d|l|number|answer|r|came) == 0 \{"),
    ],
    2: [("a function that only hands on, for one type or size", r"fn (touch\w*|measure\w*|wide_\w+|lend)\(")],
    3: [("a loop by hand", r"^\s*(while|loop)\b")],
    4: [("equality, order or conversion by hand", r"fn (earlier|larger|lesser|longer|shorter|is_word|same|is_done|is_ended|number_of|number|byte|is_task|is_digit|wide_\w+|at_most|plus|spell|word)\(|fn place\(x|pub fn number\(a")],
    6: [("bytes lent with a place or a length beside", r"(bytes|out|room|table|s|text): &(mut )?\[u8(; \d+)?\], (at|from|place|len|n|count): usize|^    (out|bytes|table): &(mut )?\[u8\],$"),
        ("keys beside tasks", r"keys: &(mut )?\[u64; 128\], tasks: &(mut )?\[u16; 128\]|^    (rk|wk|keys): &(mut )?\[u64; 128\],")],
    7: [("a switch on which step to run, by number", r"match order|if order ==|call < 4294967296|if !?stepwise")],
}


def params(text):
    """each function with how many parameters it has"""
    for m in re.finditer(r"\bfn (\w+)(?:<[^>]*>)?\(", text):
        depth, i, parts, word = 1, m.end(), 0, ""
        while depth:
            c = text[i]
            depth += (c in "([{") - (c in ")]}")
            if depth == 1 and c == "," or depth == 0:
                parts += bool(word.strip())
                word = ""
            else:
                word += c
            i += 1
        yield m.group(1), parts, text.count("\n", 0, m.start()) + 1


def runs():
    """each run of six lines that stands in src more than once, with its places; imports and lines of two letters are left out"""
    seen = {}
    for path in sorted(glob.glob("crates/*/src/*.rt")):
        lines = [(n, x.strip()) for n, x in enumerate(open(path).read().split("\n"), 1)]
        lines = [(n, x) for n, x in lines if len(x) > 2 and not re.match(r"(ghost )?use |//|#", x)]
        for i in range(len(lines) - 5):
            seen.setdefault(tuple(x for _, x in lines[i : i + 6]), []).append(f"{path}:{lines[i][0]}")
    return [" ".join(at) + ": " + run[0][:60] for run, at in seen.items() if len(at) > 1]


def places():
    found = {k: [] for k in range(1, 8)}
    found[2] += [("a run of six lines that stands more than once", run) for run in runs()]
    for path in sorted(glob.glob("crates/*/src/*.rt")):
        text = open(path).read()
        for n, line in enumerate(text.split("\n"), 1):
            for point, kinds in LINES.items():
                for kind, form in kinds:
                    if re.search(form, line):
                        found[point].append((kind, f"{path}:{n}: {line.strip()[:100]}"))
        for name, count, n in params(text):
            if count > 6:
                found[5].append(("more than six parameters", f"{path}:{n}: {name}, {count}"))
    return found


found = places()
for point in sorted(found):
    if len(sys.argv) < 2 or int(sys.argv[1]) == point:
        kinds = {}
        for kind, place in found[point]:
            kinds.setdefault(kind, []).append(place)
        for kind, here in kinds.items():
            print(f"{point}  {len(here):3}  {kind}")
            if len(sys.argv) > 1:
                print("\n".join("        " + p for p in here))
