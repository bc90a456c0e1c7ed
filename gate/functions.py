"""How the functions of a crate are named: in its sources, by `rattle check`, and by the folders of its proofs. A function is
told from others by a tuple: the modules, the type or the trait's impl if it is a method, and its own name."""
import collections
import re

FUNCTION = re.compile(r"(?m)^ *(?:pub(?:\([^)]*\))? )?(?:const )?(?:unsafe )?fn (\w+)")
IMPL = re.compile(r"(?m)^(?:unsafe )?impl\b([^{;]*)\{$")
CONSTANT = re.compile(r"(?ms)^(?:pub\([^)]*\) )?const (\w+):.*?;$")
TYPE = re.compile(r"(?m)^(?:pub(?:\([^)]*\))? )?(?:struct|enum|union) (\w+)")
# The files that are the proof of the function in whose folder they lie.
PROOFS = ("Answers.antt", "Invariants.antt", "Proof.antt")


def module_of(path):
    """The module that a file of src/ is, as a list of names."""
    names = path[len("src/") : -len(".rt")].split("/")
    return [] if names in (["lib"], ["main"]) else names[:-1] if names[-1] == "mod" else names


def block_at(head, text, place):
    """The last text of this form before a place, where its block, which ends at its own depth, holds the place."""
    heads = [it for it in head.finditer(text) if it.start() <= place]
    if not heads:
        return None
    depth = re.match(" *", text[heads[-1].start() :])[0]
    end = re.compile(rf"(?m)^{depth}(?:\}}|\{{\}})").search(text, heads[-1].end())
    return heads[-1] if end and place < end.end() else None


def parts_of(header):
    """The trait, if there is one, and the type of an impl's header, without what stands in `<..>` and behind `where`."""
    header = re.split(r"\bwhere\b", header)[0]
    while re.search(r"<[^<>]*>", header):
        header = re.sub(r"<[^<>]*>", "", header)
    trait, _, owner = (it.strip() for it in header.rpartition(" for "))
    return trait, owner


def impl_name(header):
    """What the checker calls an impl: of a trait's the words of its type, the trait's name and the words of the trait's
    arguments, without the impl's own parameters; or its type, if it is for any arguments. None if it isn't known: for a type
    at arguments of its own, or with more in it than a path and its arguments."""
    whole = " ".join(re.split(r"\bwhere\b", header)[0].split())
    own, depth = "", 0
    if whole.startswith("<"):
        end = next(at for at, it in enumerate(whole) if (depth := depth + (it == "<") - (it == ">")) == 0)
        own, whole = whole[1:end], whole[end + 1 :]
    own = set(re.findall(r"(?:^|, )(?:const )?(\w+)", re.sub(r"<[^<>]*>", "", own)))
    trait, _, owner = whole.strip().rpartition(" for ")
    if not re.fullmatch(r"[\w:<>,' ]+", trait + owner):
        return None
    words = lambda text: "".join(it[0].upper() + it[1:] for it in re.findall(r"'?\w+", text) if it[0] != "'" and it not in own)
    name, _, arguments = (trait or owner).partition("<")
    if trait:
        return words(owner) + name.split("::")[-1] + words(arguments)
    return None if words(arguments) else name


def homes_in(texts, with_impls):
    """For each name of a type that a crate's src/ defines, and of a trait's impl there, the modules that do; an impl is left
    out if something else has its name. `texts` has the crate's files by their paths."""
    homes, impls = collections.defaultdict(list), collections.Counter()
    for path, text in texts.items():
        if path.startswith("src/"):
            for name in TYPE.findall(text):
                homes[name].append(module_of(path))
            impls.update((impl_name(it), *module_of(path)) for it in IMPL.findall(text) if with_impls and parts_of(it)[0])
    types = set(homes)
    for (name, *module), count in impls.items():
        if name and count == 1 and name not in types:
            homes[name].append(module)
    return homes


def function_at(path, text, place, homes):
    """The function whose text holds a place of a file: the tuple that tells it from others, and a path that `--only` takes
    for it. A method goes by its type and the module of that, which `homes` gives; one of a trait's impl by the impl, if
    `homes` has it in this module, or else by its file alone, which `--only` is given for it in any case."""
    function = block_at(FUNCTION, text, place) if path.startswith("src/") else None
    if not function:
        return None
    names, name = module_of(path), function[1]
    impl = block_at(IMPL, text, place)
    trait, owner = parts_of(impl[1]) if impl else ("", "")
    if not owner:
        return (*names, name), "::".join([*names, name])
    if trait:
        named = impl_name(impl[1])
        return (*names, *([named] if names in homes.get(named, ()) else []), name), "::".join(names or [owner])
    if len(homes.get(owner, ())) == 1:
        names = homes[owner][0]
    return (*names, owner, name), "::".join([*names, owner, name])


def user_of(path, text, place, texts, homes):
    """The one function that names the constant whose text holds a place of a file, as `function_at` gives it, so that it alone
    can be wrong where the constant is; None where the place is in no constant of the crate's own, or it is named anywhere
    else. `texts` has the crate's files by their paths."""
    constant = next((it for it in CONSTANT.finditer(text) if it.start() <= place < it.end()), None) if path.startswith("src/") else None
    if not constant:
        return None
    found, word = set(), re.compile(rf"\b{constant[1]}\b")
    for file, whole in texts.items():
        own = [it.span() for it in CONSTANT.finditer(whole) if it[1] == constant[1]]
        places = (it.start() for it in word.finditer(whole) if not any(start <= it.start() < end for start, end in own))
        found |= {function_at(file, whole, it, homes) for it in places}
    return found.pop() if len(found) == 1 else None


def function_of(names, homes):
    """The tuple of the function that a check, or a folder, names by this path; a closure stands for the function it is in, and
    a type for itself at some arguments (`Type+Argument`). A type or an impl that `homes` doesn't have is left out. (A folder
    has a `+` before a name that stands for something else beside it.)"""
    if "fn" in names:
        at = names.index("fn")
        inner = names[at + 1 :]
        # a call of a closure through a trait is named behind the closure
        end = next((number for number, it in enumerate(inner) if "+Fn" in it), len(inner) - 1)
        names = names[:at] + inner[:end]
    heads = (it.partition("+")[0] for it in names[:-1])
    return (*(it for it in heads if it[0].islower() or it in homes), names[-1].removeprefix("+"))


def without_impl(function):
    """How a function is told from others where a trait's impl goes by its file alone."""
    return *(it for it in function[:-1] if it[0].islower()), function[-1]


def body_of(text, function):
    """Where the body of a function of src/ begins and ends, between its braces, or None where it isn't laid out on lines of
    its own. `function` is where FUNCTION matches."""
    depth = re.match(" *", function[0])[0]
    at = function.start()
    while at < len(text):
        end = text.find("\n", at) + 1 or len(text)
        line = text[at:end].rstrip()
        if at > function.start() and not re.match(rf"{depth}( |[{{)>]|where\b)", line):
            return None
        if line.endswith("{") and not line.startswith(f"{depth} "):
            close = re.compile(rf"(?m)^{depth}\}}").search(text, end)
            return (end, close.start()) if close else None
        at = end
    return None


def span_of(path, text, function, homes):
    """Where a function of a file of src/ begins, with the attributes and comments above it, where its name stands, and where it
    ends; None where it is of a trait's impl, or isn't found or laid out on lines of its own."""
    for it in FUNCTION.finditer(text):
        body = body_of(text, it)
        if not body or (function_at(path, text, it.start(1), homes) or (None,))[0] != function:
            continue
        impl, depth, start = block_at(IMPL, text, it.start()), re.match(" *", it[0])[0], it.start()
        if impl and parts_of(impl[1])[0]:
            return None
        lines = text[:start].split("\n")[:-1]
        while lines and re.match(rf"{depth}(//|#\[)", lines[-1]):
            start -= len(lines.pop()) + 1
        return start, it.start(1), text.index("\n", body[1]) + 1
    return None


def folders_of(function, texts, homes):
    """The folders below proofs/ that have a proof of a function; None where one of a closure of it does, or one that is for some
    arguments of its type."""
    folders = {it.removeprefix("proofs/").rpartition("/")[0] for it in texts if it.startswith("proofs/")} - {""}
    found = {it for it in folders if function_of(it.split("/"), homes) == function}
    return None if any(re.search(r"(^|/)fn/|\+", it) for it in found) else found


def named_alone(crate, texts, homes):
    """The folders below proofs/ of a crate's functions of which no proof can see more than the statement: those that have such
    a folder, and those of src/ whose name is known, but no closure, no function in a cycle of calls, and none of whose
    modules a file of another folder names."""
    found, named = set(), set()
    cited = re.compile(rf"\bRattle\.{crate}\.proofs\.([^\s(){{}},;]+)|\bcrate::proofs::([\w:+]+)")
    for path, text in texts.items():
        folder, _, file = path.removeprefix("proofs/").rpartition("/")
        for names in (re.split(r"\.|::", one or other) for one, other in cited.findall(text)):
            heads = ("/".join(names[:end]) for end in range(1, len(names) + 1))
            named.update(it for it in heads if not path.startswith(f"proofs/{it}/"))
        if path.startswith("proofs/") and file in PROOFS:
            found.add(folder)
        elif path.startswith("src/"):
            for it in FUNCTION.finditer(text):
                impl, (function, _) = block_at(IMPL, text, it.start()), function_at(path, text, it.start(), homes) or ((), "")
                is_known = impl_name(impl[1]) in function[-2:-1] if impl else not it[0].startswith(" ")
                if function and is_known and "#[cycle" not in text[: it.start()].rpartition("\n\n")[2]:
                    found.add("/".join(function))
    return {it for it in found - named - {"", "main"} if not re.search(r"(^|/)(fn/|\+)", it)}


def cycles(texts, homes):
    """For each function in a cycle of calls, which `#[cycle(NAME)]` names, all that are in it, as `function_at` gives them. They
    are proved together, so that where one is refused all are."""
    found = collections.defaultdict(set)
    for path, text in texts.items():
        for it in FUNCTION.finditer(text) if path.startswith("src/") else ():
            named = re.search(r"#\[cycle\((\w+)\)\]", text[: it.start()].rpartition("\n\n")[2])
            function = named and function_at(path, text, it.start(1), homes)
            if function:
                found[path, named[1]].add(function)
    return {function: together for together in found.values() for function in together}
