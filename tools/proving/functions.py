"""Finds the functions of a crate's source, by rattle's own tokens and under the names that rattle prints."""
import json
import os
import re
import subprocess
from collections import namedtuple

from .kit import rtlib

# A token of a file: where it begins and ends, in characters, and its text, which is empty for a literal.
Token = namedtuple("Token", "begin end text")

# A function: its name as rattle prints it; its file; where it begins, with its attributes, its own name's token, where
# its body begins, and where it ends; how an edit of its body can be tried together with others.
Function = namedtuple("Function", "name file begin name_token body end way")

# A constant: its name, without a path; its file; where it begins, with its attributes, and where it ends.
Constant = namedtuple("Constant", "name file begin end")

# How an edit can be tried: in a copy of the function under another name, put after it; where the function is, as a
# trait's impl has room for no copy; or alone.
IN_A_TWIN, IN_PLACE, ALONE = "in a twin", "in place", "alone"

CLOSING = {"(": ")", "[": "]", "{": "}"}
WORD = re.compile(r"[A-Za-z_]\w*\Z")
# Words that may be before `fn`, `impl`, `trait` or `mod`.
QUALIFIERS = ("pub", "unsafe", "const", "extern", "default")


class Unreadable(Exception):
    """The source can't be read: brackets don't match, or rattle refuses its tokens."""


def source_files(folder):
    """Returns the paths of the files below src/ of a crate's folder, by their paths in it."""
    found = []
    for at, _, names in os.walk(f"{folder}/src"):
        found += [os.path.relpath(f"{at}/{name}", folder) for name in names if name.endswith(".rt")]
    return sorted(found)


def tokens_of(folder, files):
    """Returns the tokens of each file, without comments and ghost texts."""
    words = [rtlib.RATTLE, "fmt", "--tokens", *[f"{folder}/{file}" for file in files]]
    ran = subprocess.run(words, stdout=subprocess.PIPE, stderr=subprocess.DEVNULL)
    parts = re.split(rb"(?m)^file \d+\n", ran.stdout)[1:]
    if ran.returncode or len(parts) != len(files):
        raise Unreadable(folder)
    found = {}
    for file, part in zip(files, parts):
        with open(f"{folder}/{file}", "rb") as it:
            found[file] = list(tokens_in(it.read(), part))
    return found


def tokens_in(data, rows):
    """Yields the tokens of a file, from its bytes and rattle's rows: line, begin and end in bytes, kind, text."""
    at = chars = 0
    for row in re.finditer(rb"(?m)^\d+ (\d+) (\d+) (\w+) (.*)$", rows):
        start, end, kind = int(row[1]), int(row[2]), row[3]
        chars += len(data[at:start].decode())
        begin, chars, at = chars, chars + len(data[start:end].decode()), end
        if kind in (b"Code", b"Literal"):
            yield Token(begin, chars, json.loads(row[4]) if kind == b"Code" else "")


class Reader:
    """Reads the items of one file."""

    def __init__(self, crate, file, tokens):
        self.file, self.tokens = file, tokens
        # The functions, the constants, and the types by their paths.
        self.found, self.constants, self.types = [], [], []
        self.closing = self.matched()
        path = file[len("src/") : -len(".rt")].split("/")
        if path[-1] in ("lib", "main", "mod"):
            path.pop()
        self.read_items(0, len(tokens), [crate, *path], IN_A_TWIN)

    def text(self, at):
        return self.tokens[at].text if at < len(self.tokens) else ""

    def matched(self):
        """Returns for each opening bracket where the bracket is that closes it."""
        found, opened = {}, []
        for at, token in enumerate(self.tokens):
            if token.text in CLOSING:
                opened.append(at)
            elif token.text in CLOSING.values():
                if not opened or CLOSING[self.text(opened[-1])] != token.text:
                    raise Unreadable(self.file)
                found[opened.pop()] = at
        if opened:
            raise Unreadable(self.file)
        return found

    def read_items(self, at, end, path, way):
        """Reads the items from a token on, given how edits of functions among them can be tried."""
        begin, is_in_cycle = None, False
        while at < end:
            begin = at if begin is None else begin
            if self.text(at) == "#":
                after, words = self.attribute(at)
                is_in_cycle = is_in_cycle or "cycle" in words
                at = after
                continue
            if self.text(at) in QUALIFIERS and self.leads_to_item(at):
                at += 1
                at = self.closing[at] + 1 if self.text(at) == "(" else at
                # The literal behind `extern`.
                at += at < end and not self.text(at)
                continue
            at = self.read_item(begin, at, path, ALONE if is_in_cycle else way)
            begin, is_in_cycle = None, False

    def read_item(self, begin, at, path, way):
        """Reads the item whose first word, behind attributes and qualifiers, is at a token. Returns what follows it."""
        word, after = self.text(at), self.end_of_item(at)
        if word == "fn" and WORD.match(self.text(at + 1)):
            return self.read_function(begin, at, path, way)
        self.read_declared(begin, at, path)
        opening = self.opening(at)
        if self.text(opening) != "{":
            return after
        if word == "mod":
            self.read_items(opening + 1, after - 1, [*path, self.text(at + 1)], IN_A_TWIN)
        elif word == "trait":
            self.read_items(opening + 1, after - 1, [*path, self.text(at + 1)], ALONE)
        elif word == "impl":
            name, is_of_trait = self.impl_name(at + 1, opening)
            self.read_items(opening + 1, after - 1, [*path, name], IN_PLACE if is_of_trait else IN_A_TWIN)
        return after

    def read_declared(self, begin, at, path):
        """Notes the type or the constant that an item declares, if it declares one."""
        at += self.text(at) == "pub"
        at = self.closing[at] + 1 if self.text(at) == "(" else at
        word, name = self.text(at), self.text(at + 1)
        if word in ("struct", "enum", "union"):
            self.types.append("::".join([*path, name]))
        elif word == "const":
            end = self.tokens[self.end_of_item(at) - 1].end
            self.constants.append(Constant(name, self.file, self.tokens[begin].begin, end))

    def functions_naming(self, names):
        """Returns the functions that have one of these words in their code."""
        places = [token.begin for token in self.tokens if token.text in names]
        return [it for it in self.found if any(it.begin <= place < it.end for place in places)]

    def attribute(self, at):
        """Returns what follows an attribute, and its words."""
        opening = at + 1 + (self.text(at + 1) == "!")
        closing = self.closing.get(opening, opening)
        return closing + 1, [self.text(it) for it in range(opening, closing)]

    def leads_to_item(self, at):
        """Returns whether a qualifier is one of `fn`, `impl`, `trait` or `mod`."""
        while self.text(at) in QUALIFIERS or at < len(self.tokens) and not self.text(at):
            at += 1
            at = self.closing[at] + 1 if self.text(at) == "(" else at
        return self.text(at) in ("fn", "impl", "trait", "mod")

    def opening(self, at):
        """Returns where the `{` or the `;` of an item is."""
        while at < len(self.tokens) and self.text(at) not in ("{", ";"):
            at = self.closing.get(at, at) + 1
        return at

    def end_of_item(self, at):
        opening = self.opening(at)
        return self.closing.get(opening, opening) + 1

    def impl_name(self, at, to):
        """Returns rattle's name of an impl: its type's, and then its trait's with the types that this is given; and
        whether it is a trait's."""
        depth, names, arguments = 0, [[]], [[]]
        is_parameters = self.text(at) == "<"
        while at < to:
            word = self.text(at)
            is_arrow = self.text(at - 1) in ("-", "=")
            depth += {"<": 1, ">": -1 * (not is_arrow), ">>": -2}.get(word, 0)
            if is_parameters:
                is_parameters = depth > 0
            elif depth == 0 and word == "for":
                names.append([])
                arguments.append([])
            elif depth == 0 and word == "where":
                break
            elif WORD.match(word) and depth == 0:
                names[-1].append(word)
            elif WORD.match(word) and self.text(at + 1) not in ("::", ":"):
                arguments[-1].append(word[0].upper() + word[1:])
            elif depth and word == "&":
                arguments[-1].append("Ref")
            at += 1
        last = [it[-1] if it else "?" for it in names]
        return (last[0], False) if len(last) == 1 else (last[1] + last[0] + "".join(arguments[0]), True)

    def read_function(self, begin, at, path, way):
        """Reads a function whose `fn` is at a token. Returns what follows it."""
        opening, after = self.opening(at), self.end_of_item(at)
        if self.text(opening) != "{":
            return after
        name, last, before = self.tokens[at + 1], self.tokens[after - 1], len(self.found)
        inside = opening + 1
        while inside < after:
            is_function = self.text(inside) == "fn" and WORD.match(self.text(inside + 1))
            inside = self.read_function(inside, inside, [*path, "fn", name.text], ALONE) if is_function else inside + 1
        # A copy of a function that holds others would hold them too.
        way = ALONE if len(self.found) > before or name.text == "main" else way
        whole, start = "::".join([*path, name.text]), self.tokens[begin].begin
        self.found.append(Function(whole, self.file, start, name, self.tokens[opening].end, last.end, way))
        return after


def readers_of(name, folder):
    """Returns readers that have read the files of the crate of this name in a folder. Each function has the name that
    rattle prints: a method's begins with the path of its type, also if its impl is in another module."""
    files = source_files(folder)
    tokens = tokens_of(folder, files)
    readers = [Reader(name, file, tokens[file]) for file in files]
    types = [path for reader in readers for path in reader.types]
    for reader in readers:
        reader.found = [at_its_type(function, types) for function in reader.found]
    return readers


def at_its_type(function, types):
    """Returns a function under the path of its type, if it is in an impl of a type of another module, and the crate has
    one type of that name."""
    path, _, name = function.name.rpartition("::")
    of_name = [it for it in types if it.rpartition("::")[2] == path.rpartition("::")[2]]
    is_elsewhere = len(of_name) == 1 and path not in types
    return function._replace(name=f"{of_name[0]}::{name}") if is_elsewhere else function


def functions_of(name, folder):
    """Returns the functions of the crate of this name in a folder."""
    return [function for reader in readers_of(name, folder) for function in reader.found]


def calls_of(rlib):
    """Returns for each function of a proved library which of its functions it calls or passes on, by rattle's names."""
    with open(f"{rlib}/toolchain/mir.json", encoding="utf-8") as it:
        read = json.load(it)
    names, members = {name for name, _ in read}, {}
    for name, rest in read:
        of = (rest.get("generics") or {}).get("method_of")
        if isinstance(of, dict) and "Impl" in of:
            members.setdefault(of["Impl"][0], set()).add(name)
    called = lambda it: {it} if it in names else members.get(it, ())
    return {name: {to for it in strings_in(rest.get("body")) for to in called(it)} for name, rest in read}


def strings_in(value):
    """Yields the strings of a value of JSON."""
    if isinstance(value, str):
        yield value
    elif isinstance(value, (list, dict)):
        for each in value.values() if isinstance(value, dict) else value:
            yield from strings_in(each)


def reached_by(name, calls):
    """Returns the functions that a function reaches by calls."""
    seen, left = set(), [name]
    while left:
        new = {*calls.get(left.pop(), ())} - seen
        seen |= new
        left += new
    return seen
