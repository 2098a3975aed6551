"""Reads the text of a Rattle source: its tokens, its functions, and what stands around bodies."""
import re

TOKEN = re.compile(
    r"""
    (?P<space>\s+ | //[^\n]*)
  | (?P<comment>/\*)
  | (?P<text>b?r(?P<hashes>\#*)"(?s:.*?)"(?P=hashes) | b?"(?:\\(?s:.)|[^"\\])*")
  | (?P<character>b?'(?:\\(?:x[0-9a-fA-F]{2}|u\{[^}]*\}|.)|[^\\'\n])')
  | (?P<word>'?\w+)
  | (?P<sign>(?s:.))
    """,
    re.VERBOSE,
)
CLAUSES = ("requires", "ensures", "ghost", "decreases", "invariant")
OPENING, CLOSING = "([{", ")]}"
# What stands in the place of a body, where the text around the bodies is compared.
BODY = "{..}"


class Token(str):
    """A token with its line, counted from 1."""

    def __new__(cls, text, line):
        made = super().__new__(cls, text)
        made.line = line
        return made


class Function:
    """A function with a body: where it stands, and its body's tokens."""

    def __init__(self, file, module, owner, trait, name, cycle):
        self.file, self.module, self.owner, self.trait = file, module, owner, trait
        self.name, self.cycle = name, cycle
        # Whether its recursion has other functions; their goals then begin with their names.
        self.shares_cycle = False
        self.first_line = self.last_line = 0
        self.body = []

    def path(self):
        """Its path below the crate, as a check names it."""
        owner = [self.owner + "".join(self.trait)] if self.owner else []
        return "::".join([*self.module, *owner, self.name])

    def is_law(self):
        """Whether it is a statement alone, proved of an empty body."""
        return not self.body


def comment_end(text, at):
    """Returns where the comment ends that begins here; one may stand in another."""
    depth = 0
    for found in re.compile(r"/\*|\*/").finditer(text, at):
        depth += 1 if found[0] == "/*" else -1
        if not depth:
            return found.end()
    return len(text)


def tokens_of(text):
    """Returns the tokens of a source without spaces and comments."""
    found, at, line = [], 0, 1
    while at < len(text):
        match = TOKEN.match(text, at)
        end = comment_end(text, at) if match["comment"] else match.end()
        if not match["comment"] and not match["space"]:
            found.append(Token(match[0], line))
        line += text.count("\n", at, end)
        at = end
    return found


def closing(tokens, at):
    """Returns the place of the token that closes what opens here."""
    depth = 0
    for place in range(at, len(tokens)):
        depth += (tokens[place] in OPENING) - (tokens[place] in CLOSING)
        if not depth:
            return place
    return len(tokens) - 1


def opening(tokens, at):
    """Returns the place of the token that opens what closes here."""
    depth = 0
    for place in range(at, -1, -1):
        depth += (tokens[place] in CLOSING) - (tokens[place] in OPENING)
        if not depth:
            return place
    return 0


def body_of(tokens, at):
    """Returns where the body of the function whose `fn` stands here opens, and where it ends.

    Where there is none the first is None.
    """
    place = at + 1
    while place < len(tokens):
        token = tokens[place]
        if token in CLAUSES:
            while tokens[place] != "{":
                place += 1
            place = closing(tokens, place)
        elif token in ("(", "["):
            place = closing(tokens, place)
        elif token == "{":
            return place, closing(tokens, place)
        elif token == ";":
            break
        place += 1
    return None, place


def head_name(tokens):
    """Returns the last name of a path, before its type arguments: `Display` of `fmt::Display`."""
    name = ""
    for token in tokens:
        if token in ("<", "where"):
            break
        if re.fullmatch(r"[^\W\d]\w*", token) and token not in ("dyn", "mut", "const"):
            name = str(token)
    return name


def without_parameters(tokens):
    """Returns the tokens of a header behind the `<..>` that it begins with, if it does."""
    depth = 0
    for place, token in enumerate(tokens):
        depth += (token == "<") - (token == ">" and tokens[place - 1] != "-")
        if not depth:
            return tokens[place + 1 :] if tokens[0] == "<" else tokens
    return tokens


def impl_names(header):
    """Returns the type and the trait of an `impl`, from the tokens between `impl` and its brace.

    The trait is a list of names, its own and those of its type arguments; it may be empty.
    """
    behind = without_parameters(header)
    parameters = header[: len(header) - len(behind)]
    depth = 0
    for place, token in enumerate(behind):
        depth += (token == "<") - (token == ">" and behind[place - 1] != "-")
        if token == "for" and not depth:
            trait = behind[:place]
            given = trait[trait.index("<") :] if "<" in trait else []
            given = [str(it) for it in given if it[:1].isupper() and it not in parameters]
            return head_name(behind[place + 1 :]), [head_name(trait), *given]
    return head_name(behind), []


def without_head(tokens):
    """Returns the tokens without what belongs to the item behind them: attributes and `pub`."""
    end = len(tokens)
    while end:
        if tokens[end - 1] in ("]", ")"):
            start = opening(tokens, end - 1) - 1
            if start < 0 or tokens[start] not in ("#", "pub"):
                break
        elif tokens[end - 1] in ("pub", "const", "unsafe"):
            start = end - 1
        else:
            break
        end = start
    return tokens[:end]


def is_public(tokens):
    """Returns whether the function whose `fn` stands behind these tokens is public."""
    end = len(tokens)
    while end and tokens[end - 1] in ("const", "unsafe"):
        end -= 1
    return end > 0 and tokens[end - 1] == "pub"


def without_unused(tokens):
    """Returns the tokens without the names that a `ghost use` brings and none of them uses."""
    parts, at = [], 0
    while at < len(tokens):
        end = at + 1
        if tokens[at : at + 2] == ["ghost", "use"]:
            end = tokens.index(";", at) + 1
        parts.append(tokens[at:end])
        at = end
    used = {token for part in parts if len(part) == 1 for token in part}
    kept = []
    for part in parts:
        brace = part.index("{") if len(part) > 1 and "{" in part else len(part)
        names = " ".join(part[brace + 1 : -2]).split(" , ")
        names = [name for name in names if not used.isdisjoint(name.split())]
        kept += part[:brace] if brace == len(part) else [*part[:brace], *names] * bool(names)
    return kept


class Source:
    """The functions of a file, and its tokens with each body left out."""

    def __init__(self, file, text):
        self.file, self.functions, self.around = file, [], []
        # The same as around it, but also without the functions that other crates can't call.
        self.shown = []
        # Whether the items that are read are a trait's, which are as public as it is.
        self.in_trait = False
        self.tokens = tokens_of(text)
        parts = file.split("/")[1:]
        parts[-1] = parts[-1].partition(".")[0]
        self.module = [] if parts in (["lib"], ["main"]) else parts
        self.read_items(0, len(self.tokens), self.module, "", [])
        cycles = [it.cycle for it in self.functions]
        for function in self.functions:
            function.shares_cycle = bool(function.cycle) and cycles.count(function.cycle) > 1

    def seen_above(self):
        """Returns the tokens that the crates above can see, as far as they matter to these."""
        return without_unused(self.shown)

    def types(self):
        """Returns the names of the types that it declares."""
        pairs = zip(self.around, self.around[1:])
        return {str(name) for word, name in pairs if word in ("struct", "enum")}

    def read_items(self, at, end, module, owner, trait):
        """Reads the items between two places."""
        cycle = ""
        while at < end:
            token = self.tokens[at]
            last = at
            if token == "#" and self.tokens[at + 1] == "[":
                last = closing(self.tokens, at + 1)
                found = re.match(r"#\[cycle\((\w+)\)", "".join(self.tokens[at:last]))
                cycle = found[1] if found else cycle
            elif token == "fn":
                at, cycle = self.read_function(at, module, owner, trait, cycle), ""
                continue
            elif token in ("impl", "trait", "mod") and self.opens_items(at):
                at = self.read_inner(at, module)
                continue
            elif token == "{":
                last = closing(self.tokens, at)
            self.pass_on(self.tokens[at : last + 1])
            at = last + 1

    def pass_on(self, tokens):
        """Takes over tokens that aren't a body's."""
        self.around += tokens
        self.shown += tokens

    def opens_items(self, at):
        """Returns whether the word here begins an item that holds others."""
        while self.tokens[at] not in ("{", ";"):
            at += 1
        return self.tokens[at] == "{"

    def read_inner(self, at, module):
        """Reads an `impl`, a `trait` or a `mod`, and returns the place behind it."""
        brace = at
        while self.tokens[brace] != "{":
            brace += 1
        end, header = closing(self.tokens, brace), self.tokens[at + 1 : brace]
        self.pass_on(self.tokens[at : brace + 1])
        if self.tokens[at] == "mod":
            self.read_items(brace + 1, end, [*module, str(header[0])], "", [])
        elif self.tokens[at] == "trait":
            self.in_trait = True
            self.read_items(brace + 1, end, module, str(header[0]), [])
        else:
            owner, trait = impl_names(header)
            self.in_trait = bool(trait)
            self.read_items(brace + 1, end, module, owner, trait)
        self.in_trait = False
        self.pass_on([self.tokens[end]])
        return end + 1

    def read_function(self, at, module, owner, trait, cycle):
        """Reads the function whose `fn` stands here, and returns the place behind it."""
        brace, end = body_of(self.tokens, at)
        if brace is None:
            self.pass_on(self.tokens[at : end + 1])
            return end + 1
        self.around += [*self.tokens[at:brace], BODY]
        if self.in_trait or is_public(self.shown):
            self.shown += [*self.tokens[at:brace], BODY]
        else:
            self.shown = without_head(self.shown)
        made = Function(self.file, module, owner, trait, str(self.tokens[at + 1]), cycle)
        made.first_line, made.last_line = self.tokens[at].line, self.tokens[end].line
        made.body = self.tokens[brace + 1 : end]
        self.functions.append(made)
        return end + 1
