"""JSON Patch (RFC 6902) and merge patches (RFC 7396) over values that random_json reads: a model written from the RFCs, and random patches."""
import json, re
from decimal import Decimal
from random_json import chance, read, value as random_value


class Refused(Exception):
    """An operation that can't be made: its index."""


# ---- values

def is_object(tree):
    return isinstance(tree, list) and tree[:1] == ["object"]


def is_array(tree):
    return isinstance(tree, list) and not is_object(tree)


def plain(tree):
    """The value as it is compared: numbers by their size, members in any order, of equal keys the last."""
    if is_object(tree):
        return ("object", tuple(sorted({key: plain(value) for key, value in tree[1:]}.items(), key=repr)))
    if is_array(tree):
        return ("array", tuple(plain(value) for value in tree))
    if isinstance(tree, str):
        return ("text", tree)
    if isinstance(tree, Number):
        return ("number", Decimal(tree.digits).normalize() + 0)
    return ("word", str(tree))


class Number:
    """A number, as it is spelled."""

    def __init__(self, digits):
        self.digits = digits

    def __repr__(self):
        return self.digits

    def __eq__(self, other):
        return isinstance(other, Number) and Decimal(self.digits) == Decimal(other.digits)

    def __hash__(self):
        return hash(Decimal(self.digits))


# ---- RFC 6901, section 4; RFC 6902, section 4

def tokens_of(pointer):
    """The reference tokens: first ~1 becomes a slash, then ~0 a tilde."""
    return [token.replace("~1", "/").replace("~0", "~") for token in pointer.split("/")[1:]]


def place_of(tree, token):
    """Where the token leads in the value, or None. Of equal keys the last counts."""
    if is_object(tree):
        found = [i for i in range(1, len(tree)) if tree[i][0] == token]
        return found[-1] if found else None
    if is_array(tree) and re.fullmatch("0|[1-9][0-9]*", token) and int(token) < len(tree):
        return int(token)
    return None


def value_at(tree, tokens):
    for token in tokens:
        place = place_of(tree, token)
        if place is None:
            raise LookupError
        tree = tree[place][1] if is_object(tree) else tree[place]
    return tree


def within(tree, tokens, change):
    """The tree with the value at the tokens changed."""
    if not tokens:
        return change(tree)
    place = place_of(tree, tokens[0])
    if place is None:
        raise LookupError
    if is_object(tree):
        return tree[:place] + [(tree[place][0], within(tree[place][1], tokens[1:], change))] + tree[place + 1:]
    return tree[:place] + [within(tree[place], tokens[1:], change)] + tree[place + 1:]


def add(tree, tokens, value):
    if not tokens:
        return value

    def added(parent):
        token = tokens[-1]
        if is_object(parent):
            place = place_of(parent, token)
            return parent + [(token, value)] if place is None else parent[:place] + [(token, value)] + parent[place + 1:]
        if not is_array(parent):
            raise LookupError
        if token == "-":
            return parent + [value]
        if not re.fullmatch("0|[1-9][0-9]*", token) or int(token) > len(parent):
            raise LookupError
        return parent[:int(token)] + [value] + parent[int(token):]
    return within(tree, tokens[:-1], added)


def remove(tree, tokens):
    if not tokens:
        raise LookupError

    def removed(parent):
        place = place_of(parent, tokens[-1])
        if place is None:
            raise LookupError
        return parent[:place] + parent[place + 1:]
    return within(tree, tokens[:-1], removed)


def performed(tree, operation):
    path = tokens_of(operation["path"])
    kind = operation["op"]
    if kind == "add":
        return add(tree, path, operation["value"])
    if kind == "remove":
        return remove(tree, path)
    if kind == "replace":
        return within(tree, path, lambda _: operation["value"])
    if kind == "test":
        if plain(value_at(tree, path)) != plain(operation["value"]):
            raise LookupError
        return tree
    start = tokens_of(operation["from"])
    value = value_at(tree, start)
    if kind == "copy":
        return add(tree, path, value)
    if path[:len(start)] == start and len(path) > len(start):
        raise LookupError
    return add(remove(tree, start), path, value)


def patched(tree, operations):
    """The value after all operations; Refused with the index of the first that can't be made."""
    for index, operation in enumerate(operations):
        try:
            tree = performed(tree, operation)
        except LookupError:
            raise Refused(index) from None
    return tree


def put(tree, steps, value, if_absent=False):
    """The tree with the value where the steps, keys and indices, lead: set, or added with what is missing above it; LookupError where it can't be."""
    if not steps:
        return tree if if_absent else value
    step, rest = steps[0], steps[1:]
    if isinstance(step, int) != is_array(tree) or not isinstance(tree, list):
        raise LookupError
    place = place_of(tree, str(step))
    if place is None:
        if isinstance(step, int) and step != len(tree):
            raise LookupError
        made = value if not rest else put([] if isinstance(rest[0], int) else ["object"], rest, value)
        return tree + [made if isinstance(step, int) else (step, made)]
    inner = put(tree[place] if isinstance(step, int) else tree[place][1], rest, value, if_absent)
    return tree[:place] + [inner if isinstance(step, int) else (step, inner)] + tree[place + 1:]


# ---- RFC 7396, section 2

def merged(target, patch):
    """MergePatch."""
    if not is_object(patch):
        return patch
    if not is_object(target):
        target = ["object"]
    for name, value in patch[1:]:
        place = place_of(target, name)
        if value is None:
            if place is not None:
                target = target[:place] + target[place + 1:]
        elif place is None:
            target = target + [(name, merged(None, value))]
        else:
            target = target[:place] + [(name, merged(target[place][1], value))] + target[place + 1:]
    return target


# ---- random patches

def spelled(tree):
    if is_object(tree):
        return "{" + ", ".join(json.dumps(key) + ": " + spelled(value) for key, value in tree[1:]) + "}"
    if is_array(tree):
        return "[" + ", ".join(map(spelled, tree)) + "]"
    return tree.digits if isinstance(tree, Number) else json.dumps(tree)


def random_part(depth):
    return read(random_value(False, depth), Number)[0]


def random_pointer(tree, is_new):
    """A pointer that mostly leads somewhere; or to a new entry."""
    text = ""
    while isinstance(tree, list) and len(tree) > is_object(tree) and chance.random() < 0.7:
        place = chance.randrange(is_object(tree), len(tree))
        step, tree = tree[place] if is_object(tree) else (str(place), tree[place])
        text += "/" + step.replace("~", "~0").replace("/", "~1")
    if chance.random() < (0.65 if is_new else 0.1):
        ends = ["-", "0", str(len(tree)), str(len(tree)), str(len(tree) + 1), "01"] if is_array(tree) else ["k", "a", "-", "0", "n~1~0"]
        text += "/" + chance.choice(ends)
    return text


def random_operation(tree):
    kind = chance.choice(["add", "add", "remove", "replace", "move", "copy", "test"])
    operation = {"op": kind, "path": random_pointer(tree, kind in ("add", "move", "copy"))}
    if kind in ("move", "copy"):
        operation["from"] = random_pointer(tree, False)
    if kind in ("add", "replace", "test"):
        operation["value"] = random_part(chance.choice([0, 0, 1, 2]))
    if kind == "test" and chance.random() < 0.8:
        try:
            operation["value"] = value_at(tree, tokens_of(operation["path"]))
        except LookupError:
            pass
    return operation


def random_operations(tree, is_long=False):
    """Some operations of any kind; or many, of which the last alone may be one that can't be made."""
    made = []
    for _ in range(chance.choice([40, 60, 80]) if is_long else chance.choice([1, 1, 2, 3, 4])):
        operation = random_operation(tree)
        if is_long and operation["op"] in ("add", "copy") and len(repr(tree)) > 3000:
            continue
        try:
            tree = performed(tree, operation)
        except LookupError:
            if is_long and chance.random() < 0.98:
                continue
            made.append(operation)
            if is_long:
                break
        else:
            made.append(operation)
    return made


def operations_spelled(operations):
    return "[" + ", ".join("{" + ", ".join(f'"{key}": {spelled(part)}' for key, part in it.items()) + "}" for it in operations) + "]"


def random_merge(tree, depth):
    """A merge patch that has much in common with the value."""
    if depth <= 0 or not is_object(tree) or chance.random() < 0.15:
        return random_part(chance.choice([0, 1, 2]))
    made = ["object"]
    for _ in range(chance.choice([0, 1, 2, 3])):
        name = chance.choice([key for key, _ in tree[1:]] + ["k", "a/b"]) if chance.random() < 0.8 else "new"
        place = place_of(tree, name)
        inner = None if place is None else tree[place][1]
        made.append((name, None if chance.random() < 0.3 else random_merge(inner, depth - 1)))
    return made
