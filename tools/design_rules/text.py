"""Rattle's text: comments, brackets, rows of parameters."""
import re


def masked(text, strings):
    """The text with its comments as blanks, and its strings too where asked for; nothing moves."""
    pattern = re.compile(r'//[^\n]*|b?"(?:\\.|[^"\\])*"|b?\'(?:\\[^\n]|[^\\\'\n])\'', re.S)

    def blank(found):
        word = found.group()
        if word.startswith("//") or strings:
            return re.sub(r"[^\n]", " " if word.startswith("//") else "_", word)
        return word

    return pattern.sub(blank, text)


def closing(text, at):
    """The place behind the bracket that closes the one at a place."""
    pairs = {"(": ")", "[": "]", "{": "}"}
    depth = 0
    opened, closed = text[at], pairs[text[at]]
    for k in range(at, len(text)):
        if text[k] == opened:
            depth += 1
        elif text[k] == closed:
            depth -= 1
            if depth == 0:
                return k + 1
    return len(text)


def behind_generics(text, at):
    if text[at : at + 1] != "<":
        return at
    depth = 0
    for k in range(at, len(text)):
        if text[k] == "<":
            depth += 1
        elif text[k] == ">" and text[k - 1] != "-":
            depth -= 1
            if depth == 0:
                return k + 1
    return len(text)


def behind_result(text, at):
    """The place of the clauses or the body behind a head."""
    stop = re.compile(r"\b(?:requires|ensures)\b|[{;\[(]")
    while True:
        found = stop.search(text, at)
        if not found:
            return len(text)
        if found.group() not in ("[", "("):
            return found.start()
        at = closing(text, found.start())


def parts(text, separator=","):
    """The text cut at a separator that stands in no bracket."""
    out, depth, start = [], 0, 0
    for k, c in enumerate(text):
        if c in "([{<" and not (c == "<" and text[k + 1 : k + 2] in (" ", "=")):
            depth += 1
        elif c in ")]}" or (c == ">" and depth and text[k - 1] not in "-= "):
            depth -= 1
        elif c == separator and depth <= 0:
            out.append(text[start:k])
            start = k + 1
    return [part.strip() for part in [*out, text[start:]] if part.strip()]


def flat(text):
    return re.sub(r"\s+", " ", text).strip()


def whiles(body):
    """Each `while` of a body: where it begins, and the text between its braces."""
    for loop in re.finditer(r"\bwhile [^{]*\{", body):
        yield loop, body[loop.end() : closing(body, loop.end() - 1) - 1]
