"""Reads the text of a .rt or .antt file: its tokens, its imports, and the names that it binds."""
import re

RUST = re.compile(
    r"""
    (?P<space>\s+ | //[^\n]*)
  | (?P<comment>/\*)
  | (?P<text>b?r(?P<hashes>\#*)"(?s:.*?)"(?P=hashes) | b?"(?:\\(?s:.)|[^"\\])*"
      | b?'(?:\\(?:x[0-9a-fA-F]{2}|u\{[^}]*\}|.)|[^\\'\n])')
  | (?P<word>'?\w+)
  | (?P<sign>::|->|=>|\.\.=?|(?s:.))
    """,
    re.VERBOSE,
)
ANTT = re.compile(
    r"""
    (?P<space>\s+ | --[^\n]* | //[^\n]*)
  | (?P<text>"(?:\\.|[^"\\])*")
  | (?P<sign>\.(?=\s) | [(){}\[\],;.])
  | (?P<word>[^\s(){}\[\],;."]+)
    """,
    re.VERBOSE,
)
# Where the ghost language begins in a .rt file.
GHOST = re.compile(
    r"(?:requires|ensures|decreases|invariant)(?:\s+\w+)?\s*(?=\{)"
    r"|ghost\s+(?!use\b)\w+\s*[=:]\s*(?=\{)"
)
LETTER = re.compile(r"[^\W\d]")
USE = re.compile(r"\bghost\s+use\b")
COMMENT = re.compile(r"/\*|\*/")
CLAUSES = ("requires", "ensures", "decreases", "invariant")
# The words before the name of an entry of a .antt file.
ENTRY = (
    *("pub", "abbrev", "unfoldable", "unfolding", "private"),
    *("data", "record", "opaque", "postulate"),
)
OPENING, CLOSING = "([{", ")]}"
# The dot behind what a λ binds, which is no dot of a path.
BINDS = ".·"


class Token(str):
    """A token: where it is, its line, and whether it is of the ghost language or a text."""

    def __new__(cls, text, at, line, ghost, quoted=False):
        made = super().__new__(cls, text)
        made.at, made.line, made.ghost, made.quoted = at, line, ghost, quoted
        return made


def comment_end(text, at):
    """Returns where the comment ends that begins here; one may be in another."""
    depth = 0
    for found in COMMENT.finditer(text, at):
        depth += 1 if found[0] == "/*" else -1
        if not depth:
            return found.end()
    return len(text)


def tokens_of(text, ghost_only):
    """Returns the tokens of a file without spaces and comments.

    A .antt file is of the ghost language only; a .rt file has ghost parts among its code.
    """
    found, at, line, depth, until = [], 0, 1, 0, None
    while at < len(text):
        ghost = ghost_only or until is not None
        is_start = not ghost and not (at and (text[at - 1].isalnum() or text[at - 1] == "_"))
        if is_start and (match := GHOST.match(text, at)):
            for part in re.finditer(r"\w+|[=:]", match[0]):
                here = line + match[0].count("\n", 0, part.start())
                found.append(Token(part[0], at + part.start(), here, False))
            line += match[0].count("\n")
            at, depth, until = match.end(), 0, "}"
            continue
        if is_start and USE.match(text, at):
            until, ghost = ";", True
        match = (ANTT if ghost else RUST).match(text, at)
        end = match.end()
        if not ghost and match["comment"]:
            end = comment_end(text, at)
        elif not match["space"]:
            is_bind = ghost and match[0] == "." and text[end : end + 1].isspace()
            quoted = match["text"] is not None
            found.append(Token(BINDS if is_bind else match[0], at, line, ghost, quoted))
            if until == ";" and match[0] == ";":
                until = None
            elif until == "}" and match[0] in ("{", "}"):
                depth += 1 if match[0] == "{" else -1
                until = until if depth else None
        line, at = line + text.count("\n", at, end), end
    return found


def closing(tokens, at):
    """Returns the place of the token that closes what opens here."""
    depth = 0
    for place in range(at, len(tokens)):
        depth += (tokens[place] in OPENING) - (tokens[place] in CLOSING)
        if not depth:
            return place
    return len(tokens) - 1


def is_word(token):
    """Returns whether a token is a name or a keyword."""
    return bool(LETTER.match(token)) and not getattr(token, "quoted", False)


def imports(tokens):
    """Gives each import of the tokens of a `use` without its last `;`: its name, and its path."""

    def tree(at, prefix):
        path, is_named = list(prefix), False
        while at < len(tokens):
            token = tokens[at]
            if token == "{":
                at += 1
                while at < len(tokens) and tokens[at] != "}":
                    at = yield from tree(at, path)
                    at += at < len(tokens) and tokens[at] == ","
                return at + 1
            if token == "as":
                yield str(tokens[at + 1]), path
                return at + 2
            if token in (",", "}"):
                break
            if token not in ("::", ".", "pub", "ghost", "use", "(", ")"):
                is_named = True
                path = [*path, str(token)] if token != "self" or not path else path
            at += 1
        if is_named:
            yield path[-1], path
        return at

    yield from tree(0, [])


def bound_in(tokens):
    """Returns the names that tokens bind: behind a λ or a let, or before a colon in brackets."""
    found = set()
    for at, token in enumerate(tokens):
        if token in ("λ", "(", "{", "let", ","):
            end = at + 1
            while end < len(tokens) and (is_word(tokens[end]) or tokens[end] in ("&", "mut")):
                end += 1
            if end < len(tokens) and tokens[end] == {"λ": BINDS, "let": "="}.get(token, ":"):
                found.update(str(it) for it in tokens[at + 1 : end])
    return found - {"mut", "self"}
