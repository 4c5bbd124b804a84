#!/usr/bin/env python3
# Lists functions of src/ whose bodies have one shape: alike but for names, numbers and texts.
import glob, re

WORDS = {"if", "else", "let", "mut", "for", "in", "while", "match", "return", "as", "fn", "Some", "None", "Ok", "Err", "self"}


def functions(text):
    for m in re.finditer(r"\bfn (\w+)", text):
        brace = re.compile(r"\{\s*\n|\{\}", re.M)
        # the body begins at the first brace that opens a block after the clauses
        for b in brace.finditer(text, m.start()):
            line = text[text.rfind("\n", 0, b.start()) + 1:b.end()]
            if not re.match(r"\s*(requires|ensures)", line):
                break
        else:
            continue
        # a method that a trait only declares has none
        if ";\n" in text[m.start():b.start()]:
            continue
        depth, i = 0, b.start()
        while i < len(text):
            depth += (text[i] == "{") - (text[i] == "}")
            i += 1
            if depth == 0:
                break
        yield m.group(1), text[b.start():i]


def shape(body):
    body = re.sub(r"//.*", "", body)
    body = re.sub(r'b?"[^"]*"|b?\'[^\']*\'|\b\d[\w.]*', "0", body)
    body = re.sub(r"[A-Za-z_]\w*", lambda m: m.group(0) if m.group(0) in WORDS else "x", body)
    return re.sub(r"\s+", " ", body)


groups = {}
for path in sorted(glob.glob("crates/*/src/**/*.rt", recursive=True)):
    for name, body in functions(open(path).read()):
        s = shape(body)
        if len(re.findall(r"\bx\b", s)) >= 4:
            groups.setdefault(s, []).append(f"{path.split('/')[1]}::{path.split('/')[-1][:-3]}::{name}")
found = [g for g in groups.values() if len(g) > 1]
for g in sorted(found):
    print("  ".join(g))
print(len(found), "shapes that more than one function has,", sum(len(g) for g in found), "functions")
