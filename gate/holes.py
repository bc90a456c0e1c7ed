"""What of a crate can stand as a statement with a hole, so that a check of an edit of src/ doesn't prove it again.

A definition in antt is shut: who cites it sees its type, and never what stands behind its `=`. The exceptions are written
down: an `abbrev`, an `unfoldable` one, and what a line `unfolding`, an `unfold .. in` or the attribute `unfolding(..)`
names; these stay whole, and so does each `data`, `record` and `ruleset`, and whatever isn't read as a signature with its
clauses. Of a function that it calls a proof sees the statement, that the function meets its contract, and never the body:
so the body can be any, and here never returns, since of each body the check would prove again what it owns."""
import re

import functions

SIGNATURE = re.compile(r"((?:(?:pattern|unfoldable|abbrev|pub) )*)([^\s(){}.;,@\"«»]+)(?: \{[^{}:]*\})? : ")
UNFOLDING = re.compile(r"(?m)^( *)unfolding\b(.*(?:\n\1 +.*)*)")
UNFOLD_IN = re.compile(r"\bunfold\b(.*?)\bin\b", re.S)
BY_TACTIC = re.compile(r"\bunfolding\(([^()]*)\)")
WORD = re.compile(r"[^\s(){}.;,@:\"«»]+")


def opened(texts):
    """The names of the definitions whose clauses something in these texts may see, as far as it says so."""
    found = set()
    for text in texts:
        for told in (*(it[2] for it in UNFOLDING.finditer(text)), *UNFOLD_IN.findall(text), *BY_TACTIC.findall(text)):
            found.update(WORD.findall(told))
    return found


def depth_of(line):
    """How far a line is indented."""
    return len(line) - len(line.lstrip(" "))


def items(lines):
    """A file's items, each as a list of lines: a line, with the lines below it that are indented further or close a bracket.
    What a `module` holds are items of their own."""
    at = 0
    while at < len(lines):
        end = at + 1
        if lines[at].strip() and not re.match(r" *module ", lines[at]):
            inner = re.compile(rf" *$|{' ' * depth_of(lines[at])}[ )\]}}]")
            while end < len(lines) and inner.match(lines[end]):
                end += 1
        while end > at + 1 and not lines[end - 1].strip():
            end -= 1
        yield lines[at:end]
        at = end


def stated(text, whole):
    """A file of lemmas with a hole for what stands behind each signature, except for the definitions named in `whole`."""
    made, listed = [], list(items(text.split("\n")))
    at = 0
    while at < len(listed):
        item, at = listed[at], at + 1
        made += item
        depth = depth_of(item[0])
        found = SIGNATURE.match(item[0], depth)
        if not found:
            continue
        name, end, clauses = found[2], at, 0
        while end < len(listed):
            head = listed[end][0]
            is_clause = depth_of(head) == depth and re.match(rf"{re.escape(name)}[ \n]", head[depth:] + "\n")
            if not is_clause and head.strip() and not re.match(r" *(--|unfolding\b)", head):
                break
            end, clauses = end + 1, clauses + bool(is_clause)
        follows = listed[end][0] if end < len(listed) else ""
        # (a clause that doesn't begin with the name, as an operator's between its arguments, is none that is known here)
        is_known = not follows.strip() or depth_of(follows) < depth or SIGNATURE.match(follows, depth) or re.match(r" *(module|data|record|ruleset|pub|abbrev|infix\w*)\b", follows)
        if clauses and is_known and not re.search(r"\b(pattern|unfoldable|abbrev) ", found[1]) and name not in whole:
            while not (listed[end - 1][0].startswith(" " * depth + name)):
                end -= 1
            made.append(f"{' ' * depth}{name} = ?")
            at = end
    return "\n".join(made)


def stated_lemmas(texts):
    """What stands for a crate's files of lemmas; `texts` has its files by their paths."""
    whole = opened(texts.values())
    lemmas = (it for it in texts if it.startswith("proofs/") and it.endswith(".antt") and it.rpartition("/")[2] not in functions.PROOFS)
    return {it: stated(texts[it], whole) for it in lemmas}


def open_proof(crate, path):
    """A Proof.antt that leaves open what is to be shown of the function at a path below proofs/."""
    module = ".".join(["Rattle", crate, "proofs", *path.split("/"), "Statement"])
    name = path.split("/")[-1]
    return f"use {module}.{{statement}}\n\npub {name}_spec : {{M : Type 1}} → statement M\n{name}_spec = ?\n"


def hollow(path, text, homes, is_open):
    """A file of src/ with a body that never returns for each function of which `is_open` holds; a `const` one keeps its own,
    since a constant may be made by it."""
    made, at = [], 0
    for it in functions.FUNCTION.finditer(text):
        function, body = functions.function_at(path, text, it.start(1), homes), functions.body_of(text, it)
        if it.start() >= at and function and body and "const fn" not in it[0] and is_open(function[0]):
            made += [text[at : body[0]], re.match(" *", it[0])[0], "    loop {}\n"]
            at = body[1]
    return "".join([*made, text[at:]])
