"""The functions of Rattle code: their names, the types that they belong to, and the lines of their bodies."""
import sys
from typing import NamedTuple

sys.dont_write_bytecode = True
from contracts import TOKEN, Unread, body_of


class Function(NamedTuple):
    """A function with a body. `type` is that of its `impl`, and `trait` the trait, each '' where there is none; the lines are counted from 1, and the
    last is that of the closing brace."""

    type: str
    trait: str
    name: str
    first: int
    last: int

    def symbols(self, crate, file):
        """Returns the names by which the prover may tell of it: most methods of traits are those of the type with the trait's name behind it."""
        modules = [] if file in ("src/lib.rt", "src/main.rt") else file.removeprefix("src/").removesuffix(".rt").split("/")
        owners = [[self.type], [self.type + self.trait]] if self.trait else [[self.type] * bool(self.type)]
        return tuple("::".join([crate, *modules, *owner, self.name]) for owner in owners)


def owner_of(header):
    """Returns the type that an `impl` with these tokens before its brace is for, and its trait, or ''."""
    depth, names, trait = 0, [], ""
    for token in header:
        depth += token.count("<") - token.count(">") + token.count("->")
        if token == "for" and depth == 0:
            trait, names = names[-1] if names else "", []
        elif token == "where":
            break
        elif depth == 0 and token.isidentifier():
            names.append(token)
    return names[-1] if names else "", trait


def functions_of(text):
    """Returns the functions of a file, in order; none where its form is not known."""
    found, tokens, lines = [], [], []
    line, at = 1, 0
    for match in TOKEN.finditer(text):
        line += text.count("\n", at, match.start())
        at = match.start()
        if not match[0].startswith("//"):
            tokens.append(match[0])
            lines.append(line)
    try:
        # The types of the `impl` blocks around, each with the depth of its braces.
        depth, around, at = 0, [], 0
        while at < len(tokens):
            token = tokens[at]
            if token == "impl":
                end = next(i for i in range(at, len(tokens)) if tokens[i] == "{")
                around.append((owner_of(tokens[at + 1 : end]), depth))
                depth, at = depth + 1, end
            elif token == "fn" and tokens[at + 1].isidentifier():
                body = body_of(tokens, at + 1)
                if body:
                    owner = around[-1][0] if around else ("", "")
                    found.append(Function(*owner, tokens[at + 1], lines[at], lines[body[1]]))
                    at = body[1]
            elif token == "{":
                depth += 1
            elif token == "}":
                depth -= 1
                if around and around[-1][1] == depth:
                    around.pop()
            at += 1
    except (Unread, StopIteration, IndexError):
        return []
    return found
