"""Tokens of a Rattle file, and what the rules ask of them."""
import re

TOKEN = re.compile(r"""
    (?P<ws>\s+)
  | (?P<comment>//[^\n]*|/\*(?:[^*]|\*(?!/))*\*/)
  | (?P<str>b?r(?P<h>\#*)"(?:.|\n)*?"(?P=h)|b?"(?:\\(?:.|\n)|[^"\\])*")
  | (?P<char>b?'(?:\\(?:x..|u\{[^}]*\}|.)|[^'\\\n])')
  | (?P<life>'[A-Za-z_]\w*)
  | (?P<num>\d(?:\w|\.(?=\d))*)
  | (?P<id>[A-Za-z_]\w*)
  | (?P<punct>::|->|=>|\.\.=|\.\.\.?|&&|\|\||==|!=|<=|[<>]|.)
""", re.X)
KINDS = ("ws", "comment", "str", "char", "life", "num", "id", "punct")
TRIVIA = ("ws", "comment")
OPEN, CLOSE = {"{": "}", "(": ")", "[": "]"}, {"}", ")", "]"}


class Token:
    """A piece of the text. What a rule writes has the kind `raw`."""
    __slots__ = ("kind", "text")

    def __init__(self, kind, text):
        self.kind, self.text = kind, text


class EraseError(Exception):
    """The eraser does not know what to do with a file."""


def raw(text):
    return Token("raw", text)


def token_at(text, at):
    """The token at a position, and the position behind it."""
    m = TOKEN.match(text, at)
    return Token(next(k for k in KINDS if m[k] is not None), m[0]), m.end()


def is_trivia(token):
    return token.kind in TRIVIA


def significant(toks, i):
    """The token at `i`, which is negative, of those that are no trivia, or None."""
    for t in reversed(toks):
        if not is_trivia(t):
            i += 1
            if i == 0:
                return t
    return None


def after(toks, i):
    """The index of the next token after `i` that is no trivia."""
    i += 1
    while i < len(toks) and is_trivia(toks[i]):
        i += 1
    return i


def before(toks, i):
    """The index of the last token before `i` that is no trivia, or -1."""
    i -= 1
    while i >= 0 and is_trivia(toks[i]):
        i -= 1
    return i


def find(toks, i, *texts):
    """The index of the first token from `i` on with one of these texts."""
    for k in range(i, len(toks)):
        if toks[k].text in texts and not is_trivia(toks[k]):
            return k
    raise EraseError(f"no {texts} after {text_of(toks[i:i + 8])!r}")


def closing(toks, i):
    """The index of the bracket that closes the one at `i`."""
    depth = 0
    for j in range(i, len(toks)):
        if toks[j].kind == "punct":
            depth += (toks[j].text in OPEN) - (toks[j].text in CLOSE)
            if depth == 0 and toks[j].text in CLOSE:
                return j
    raise EraseError("a bracket is not closed")


def text_of(toks):
    return "".join(t.text for t in toks)


def words(toks):
    return [t.text for t in toks if not is_trivia(t)]


def item_start(toks, i):
    """Where the item at `i` begins, with its docs and attributes."""
    while True:
        j = i - 1
        while j >= 0 and is_trivia(toks[j]) and not (toks[j].kind == "ws" and toks[j].text.count("\n") > 1):
            j -= 1
        k = before(toks, i)
        if k >= 0 and toks[k].text == "]":
            while toks[k].text != "#":
                k -= 1
            i = k
            continue
        first = j + 1
        if any(t.kind == "comment" and t.text.startswith("//!") for t in toks[first:i]):
            return i
        return first
