"""Random JSON, with comments and without, and Python's own reader of it: for the tools that edit and tidy such texts."""
import json, random

chance = random.Random()

CHARACTERS = ["a", "b", " ", "0", "'", ",", "//", "/*", "*/", "[", "}", ":", "\\n", "\\\"", "\\\\", "\\/", "\\u00e4", "\\ud83d\\ude00", "ä", "\u2028", "😀", ",]"]
NUMBERS = ["0", "-0", "1", "-2.5", "1e3", "1E-7", "0.0", "12345678901234567890", "6.02e+23"]
WORDS = ["", " note", " a, b: [c],", " \"", " it's", " {", "/", " *", " ünï", " ,]", " json5-tidy-ignore"]


def string():
    return '"' + "".join(chance.choice(CHARACTERS) for _ in range(chance.choice([0, 1, 2, 3, 5, 12, 30]))) + '"'


def gap(comments):
    text = ""
    while True:
        draw = chance.random()
        if draw < 0.15:
            text += chance.choice(["\n", "\n", "\r\n", "\n\n\n", "\n\t"])
        elif draw < 0.3:
            text += chance.choice([" ", "  ", "\t", "\r"])
        elif draw < 0.37 and comments:
            text += comment()
        else:
            return text


def comment():
    if chance.random() < 0.5:
        return "//" + chance.choice(WORDS) + chance.choice(["\n", " \n", "\r\n", "\r"])
    return "/*" + chance.choice(WORDS).rstrip("*/") + chance.choice(["", "\n * two\n ", "*"]) + "*/"


def value(comments, depth):
    if depth <= 0 or chance.random() < 0.4:
        return chance.choice([string, string, lambda: chance.choice(NUMBERS), lambda: chance.choice(["null", "true", "false"])])()
    is_object = chance.random() < 0.6
    parts = []
    for _ in range(chance.choice([0, 1, 1, 2, 3, 4])):
        name = string() + gap(comments) + ":" + gap(comments) if is_object else ""
        parts.append(gap(comments) + name + value(comments, depth - 1) + gap(comments))
    text = ",".join(parts) or gap(comments)
    return "{" + text + "}" if is_object else "[" + text + "]"


def document(comments):
    text = gap(comments) + value(comments, chance.choice([0, 1, 2, 3, 4, 5])) + gap(comments)
    return ("\ufeff" if chance.random() < 0.05 else "") + text


def stripped(text):
    """The text without comments, and how many there were."""
    kept, at, comments = [], 0, 0
    while at < len(text):
        start = at
        if text[at] == '"':
            at += 1
            while text[at] != '"':
                at += 2 if text[at] == "\\" else 1
            at += 1
            kept.append(text[start:at])
        elif text[at:at + 2] == "//":
            while at < len(text) and text[at] not in "\n\r":
                at += 1
            comments += 1
        elif text[at:at + 2] == "/*":
            at = text.index("*/", at + 2) + 2
            kept.append(" ")
            comments += 1
        else:
            kept.append(text[at])
            at += 1
    return "".join(kept), comments


def refused(constant):
    raise ValueError(constant)


def members(pairs):
    return ["object", *pairs]


def read(text, number=str):
    plain, comments = stripped(text)
    value = json.loads(plain, parse_constant=refused, object_pairs_hook=members, parse_int=number, parse_float=number)
    return value, comments
