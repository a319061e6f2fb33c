"""Edits of the code that the prover has to refuse, and the functions that each changes, by the names that the prover gives them."""

import collections
import os
import re

# A function as the prover names it: its module below the crate, its impl or trait, each of them '' where there is none, and its name.
Function = collections.namedtuple("Function", "module owner name")
FUNCTION = re.compile(r"\bfn (\w+)")
IMPL = re.compile(r"^(?: *(?:pub(?:\([^)]*\))? )?(?:unsafe )?)(impl|trait)\b(.*?)\{$", re.M | re.S)
CONSTANT = re.compile(r"\bconst ([A-Z]\w*):")


class Edit:
    """A wrong body: parts that each replace a text, which stands once in a file or in a function of it, by another."""

    def __init__(self, crate, file):
        self.crate, self.name, self.parts = crate, os.path.basename(file).removesuffix(".edit"), []
        self.refused_by = ""
        path = within = old = None
        with open(file, encoding="utf-8") as lines:
            for line in lines:
                word, _, text = line.rstrip("\n").partition(": ")
                if word == "refused by":
                    self.refused_by = text
                elif word == "file":
                    path, within = text, None
                elif word == "in":
                    within = text
                elif word == "old":
                    old = text
                elif word == "new":
                    self.parts.append((path, within, old, text))

    def __str__(self):
        return f"{self.crate}/{self.name}"

    def files(self):
        return {path for path, _, _, _ in self.parts}

    def applied(self, texts):
        """These texts of files with the edit in them; None where a text that it replaces is not there once."""
        texts = dict(texts)
        for path, within, old, new in self.parts:
            at = place_of(old, texts[path], within)
            if at is None:
                return None
            texts[path] = texts[path][:at] + new + texts[path][at + len(old) :]
        return texts

    def functions(self, texts):
        """The functions that the edit changes; None where it changes what is outside of one. What it brings into scope tells nothing."""
        found = set()
        for path, within, old, _ in self.parts:
            if old.startswith("use "):
                continue
            function = None if FUNCTION.search(old) else function_at(path, texts, place_of(old, texts[path], within))
            if not function:
                return None
            found.add(function)
        return found or None

    def functions_that_name(self, texts):
        """The functions that name one of the constants that the edit changes; none where it changes something else outside of functions."""
        constants = [CONSTANT.search(old) for _, _, old, _ in self.parts]
        if not all(constants):
            return set()
        named = re.compile(rf"\b(?:{'|'.join(it[1] for it in constants)})\b")
        found = {function_at(path, texts, it.start()) for path, text in texts.items() for it in named.finditer(text)}
        return found - {None}


def place_of(old, text, within):
    """Where this text stands in a file's text, or in a function of it; None where it does not stand there once."""
    start, end = 0, len(text)
    if within:
        heads = [it for it in FUNCTION.finditer(text) if it[1] == within and not is_comment(text, it.start())]
        if len(heads) != 1:
            return None
        start = heads[0].start()
        end = end_of(text, start)
    return text.index(old, start, end) if text.count(old, start, end) == 1 else None


def is_comment(text, at):
    return text[text.rfind("\n", 0, at) + 1 : at].lstrip().startswith("//")


def end_of(text, start):
    """Where the item that begins at start ends: a line at its own depth closes it."""
    line = text.rfind("\n", 0, start) + 1
    depth = re.match(r" *", text[line:]).group()
    closing = re.compile(rf"^{depth}\}}", re.M).search(text, start)
    return closing.start() if closing else len(text)


def function_at(path, texts, at):
    """The function in which this place of a file lies; None where it lies in none, or in a comment."""
    text = texts[path]
    if at is None or not path.endswith(".rt") or is_comment(text, at):
        return None
    before = [it for it in FUNCTION.finditer(text, 0, at) if not is_comment(text, it.start())]
    if not before or end_of(text, before[-1].start()) < at:
        return None
    around = [it for it in IMPL.finditer(text, 0, at) if end_of(text, it.start(1)) > at]
    owner, is_of_type = owner_of(*around[-1].groups()) if around else ("", False)
    return Function(module_of(home_of(owner, texts) or path if is_of_type else path), owner, before[-1][1])


def home_of(name, texts):
    """The file that declares the type of this name, by whose module the prover calls the type's own functions wherever they stand."""
    found = [path for path, text in texts.items() if path.endswith(".rt") and re.search(rf"^ *(?:pub(?:\([^)]*\))? )?(?:struct|enum) {name}\b", text, re.M)]
    return found[0] if len(found) == 1 else None


def owner_of(kind, head):
    """What the prover calls an impl, or a trait, and whether it is a type's own impl. That of a trait has the trait's name behind the type's,
    and then the types that the trait is of, where they are no parameters of the impl."""
    parameters, head = parameters_of(re.split(r"\bwhere\b", head)[0])
    of, is_of_a_trait, it = outside_of_brackets(head).partition(" for ")
    if kind == "trait" or not is_of_a_trait:
        return name_of(of), kind == "impl"
    arguments = parameters_of(head[head.index(name_of(of)) + len(name_of(of)) :])[0]
    types = re.findall(r"(?<!['\w])(?:\w+::)*(\w+)", arguments)
    return name_of(it) + name_of(of) + "".join(one for one in types if one not in names_in(parameters)), False


def parameters_of(text):
    """What stands in the angle brackets that a text begins with, and what stands behind them."""
    text = text.lstrip()
    if not text.startswith("<"):
        return "", text
    depth = 0
    for at, sign in enumerate(text):
        depth += (sign == "<") - (sign == ">" and text[at - 1] != "-")
        if depth == 0:
            return text[1:at], text[at + 1 :]
    return text[1:], ""


def outside_of_brackets(text):
    """A text without what stands in angle brackets."""
    found, depth = "", 0
    for at, sign in enumerate(text):
        depth += sign == "<"
        found += sign if depth == 0 else ""
        depth -= sign == ">" and text[at - 1] != "-"
    return found


def names_in(parameters):
    """The names of type parameters."""
    return {name_of(one.partition(":")[0]) for one in outside_of_brackets(parameters).split(",")}


def name_of(path):
    """The last name of a path, without what it is of."""
    words = re.findall(r"\w+", path.partition("<")[0])
    return words[-1] if words else ""


def module_of(path):
    """The module of a file, below its crate; '' for the crate's own."""
    parts = path.removeprefix("src/").removesuffix(".rt").split("/")
    return "::".join(part for part in parts if part not in ("lib", "main", "mod"))


def asked(function):
    """By what name a check is asked for this function."""
    return "::".join(part for part in function if part)


def pattern_of(crate, function, is_sure=True):
    """What matches the prover's names of this function. One of its closures has more behind it, and 'fn' before it. Where the name of its
    impl is not sure, any will do, and one of no name is each of its module."""
    module = "::".join(part for part in (crate, function.module) if part)
    if not function.name:
        return re.compile(rf"{module}::.*")
    owner = f"{function.owner}::" if function.owner else ""
    return re.compile(rf"{module}::(?:fn::)?{owner if is_sure else '(?:.*::)?'}{function.name}(?:$|::|\+)")
