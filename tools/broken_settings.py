"""Good settings files of a server, and the known ways of breaking one: for break_settings. It isn't run by itself."""
import collections, random, re

chance = random.Random()

# ---- what the programs read: a struct is its fields, each with a type, and whether it has to be there

HOSTS = ["shop.example", "api.shop.example", "my-shop.example", "caf\u00e9.example", "localhost", "web", "my shop server", "Shop 2",
    "127.0.0.1", "10.0.0.7", "192.168.1.20", "::1"]
FILES = ["/etc/tls/shop.pem", "/etc/tls/shop.key", "/var/lib/my shop/key.pem", "./tls/shop.pem", "~/.tls/key.pem", "shop.pem",
    "C:\\users\\new\\shop.pem", "C:\\tls\\x1.pem", "D:\\Shop Files\\tls\\server.key"]
PATHS = ["/", "/api", "/api/v1", "/static/*", "/shop/{id}", "/img/a-b.png"]
ADDRESSES = ["http://127.0.0.1:9000", "http://127.0.0.1:9001", "https://api.example/v1", "http://localhost:8080/",
    "https://shop.example/a?b=1&c=2", "unix:/run/shop.sock", "10.0.0.7:9000"]
METHODS = ("enum", ["GET", "POST"])
LOGS = ("enum", ["error", "info", "debug"])
PORT, U32, U64 = ("number", 65535), ("number", 2 ** 32 - 1), ("number", 2 ** 64 - 1)
TLS = ("struct", {"cert": (("text", FILES), True), "key": (("text", FILES), True)})
ROUTE = ("struct", {"path": (("text", PATHS), True), "methods": (("list", METHODS), False), "upstream": (("text", ADDRESSES), True)})
DESCRIBED = ("struct", {
    "server": (("struct", {"host": (("text", HOSTS), True), "port": (PORT, False), "tls": (TLS, False)}), True),
    "routes": (("list", ROUTE), True),
    "limits": (("struct", {"body": (U64, False), "header": (U32, False)}), False),
    "log": (LOGS, False)})
SERVER = ("struct", {"host": (("text", HOSTS), True), "port": (PORT, False), "tls": (("text", FILES), False)})
DERIVED = ("struct", {"server": (SERVER, True), "routes": (("map", ("list", SERVER)), True), "max_body": (U64, False), "log": (LOGS, False)})
NOTES = ["The web server of our shop.", "in seconds", "as it is called", "see the wiki", "don't change", "{ old }", "was: 8080", "two, or three"]


def type_at(schema, path):
    """The type of the value at a path, as a report prints it; None where there is none."""
    for name, quoted, index in re.findall(r"([^.\[\]']+)|'((?:[^'\\]|\\.)*)'|\[(\d+)\]", path):
        if schema and schema[0] == "struct" and (name or quoted) in schema[1]:
            schema = schema[1][name or quoted][0]
        elif schema and (schema[0] == "list" and index or schema[0] == "map" and (name or quoted)):
            schema = schema[1]
        else:
            return None
    return schema


# ---- good files, as pieces: brackets, keys, colons, values, commas, blanks and comments

Piece = collections.namedtuple("Piece", "kind text type path value")
Entry = collections.namedtuple("Entry", "path type start value end owner")  # of pieces; `end` is past the value, `owner` the open bracket


class Good:
    def __init__(self, schema, plain=False):
        draw = chance.random
        self.schema, self.pieces, self.entries = schema, [], []
        self.indent = chance.choice(["  ", "  ", "    ", "\t"])
        self.quote = chance.choice("''\"")
        self.keys = "" if draw() < 0.85 else self.quote
        self.last_comma, self.notes = draw() < 0.7, 0 if plain else chance.choice([0, 0.1, 0.3])
        self.line_end = "\n" if draw() < 0.93 else "\r\n"
        self.pad = chance.choice([" ", " ", " ", ""])
        self.one_line = chance.choice([0.3, 0.6, 0.9])
        if self.notes:
            self.add("comment", "// " + chance.choice(NOTES))
            self.add("blank", self.line_end)
        self.tree = self.value(schema, (), 0, plain)
        if not plain:
            self.add("blank", self.line_end if draw() < 0.9 else "")
        self.text = "".join(piece.text for piece in self.pieces)

    def add(self, kind, text, type=None, path=(), value=None):
        self.pieces.append(Piece(kind, text, type, path, value))
        return len(self.pieces) - 1

    def spell(self, text):
        quote = self.quote if chance.random() < 0.95 else "'"
        return quote + text.replace("\\", "\\\\").replace(quote, "\\" + quote) + quote

    def value(self, type, path, depth, flat):
        kind, of = type
        if kind == "number":
            number = chance.choice([80, 443, 8080, 8443, 9000, 1024]) if of == 65535 else chance.choice([512, 8192, 65536, 1048576, 4000000, 30])
            self.add("number", hex(number) if chance.random() < 0.15 else str(number), type, path, number)
            return number
        if kind in ("text", "enum"):
            text = chance.choice(of)
            self.add(kind, self.spell(text), type, path, text)
            return text
        is_large = kind == "map" or kind == "list" and of[0] in ("struct", "list")
        return self.collection(type, path, depth, flat or depth > 0 and chance.random() < self.one_line * (0.1 if is_large else 1))

    def collection(self, type, path, depth, flat):
        kind, of = type
        if kind == "struct":
            inner = [(name, sub) for name, (sub, must) in of.items() if must or chance.random() < 0.75]
            if chance.random() < 0.25:
                chance.shuffle(inner)
        elif kind == "map":
            inner = [(name, of) for name in chance.sample(PATHS, chance.choice([1, 2, 2, 3]))]
        else:
            inner = [(index, of) for index in range(chance.choice([1, 2, 2, 3]))]
        opening = "[" if kind == "list" else "{"
        owner = self.add("open", opening, type, path)
        tree = [] if kind == "list" else {}
        for place, (name, sub) in enumerate(inner):
            self.gap(depth + 1, flat, place == 0 and kind == "list")
            start = len(self.pieces)
            if kind != "list":
                is_name = re.fullmatch(r"\w+", name)
                self.add("key", self.keys + name + self.keys if is_name else self.spell(name), sub, path + (name,), name)
                self.add("colon", ":")
                self.add("blank", " ")
            begins = len(self.pieces)
            made = self.value(sub, path + (name,), depth + 1, flat)
            tree.append(made) if kind == "list" else tree.update({name: made})
            self.entries.append(Entry(path + (name,), sub, start, begins, len(self.pieces), owner))
            if place + 1 < len(inner) or self.last_comma and not flat:
                self.add("comma", ",", None, path)
            if not flat and chance.random() < self.notes:
                self.add("blank", " ")
                self.add("comment", chance.choice(["// %s", "// %s", "/* %s */"]) % chance.choice(NOTES))
        if not flat and chance.random() < self.notes / 2:
            self.gap(depth + 1, flat, False)
            self.add("comment", chance.choice(["// %s", "/* %s */"]) % chance.choice(NOTES))
        self.gap(depth, flat, kind == "list")
        self.add("close", "]" if kind == "list" else "}", type, path, owner)
        return tree

    def gap(self, depth, flat, tight):
        if not flat:
            self.add("blank", self.line_end + self.indent * depth)
        else:
            self.add("blank", "" if tight else " " if self.pieces[-1].kind == "comma" else self.pad)

    # what the ways of breaking use

    def some(self, *kinds, where=lambda piece: True):
        """A piece of these kinds."""
        fits = [i for i, piece in enumerate(self.pieces) if piece.kind in kinds and where(piece)]
        return chance.choice(fits) if fits else None

    def entry(self, where=lambda entry: True):
        fits = [entry for entry in self.entries if where(entry)]
        return chance.choice(fits) if fits else None

    def made(self, changes):
        """The text with other pieces at some places."""
        return "".join(changes.get(i, piece.text) for i, piece in enumerate(self.pieces))

    def without(self, entry):
        """The pieces of an entry and of the comma after it, as changes."""
        end = entry.end + 1 if self.pieces[entry.end].kind == "comma" else entry.end
        return {i: "" for i in range(entry.start, end)}

    def text_of(self, entry):
        return "".join(piece.text for piece in self.pieces[entry.start:entry.end])

    def value_of(self, entry):
        return "".join(piece.text for piece in self.pieces[entry.value:entry.end])

    def line_of(self, index):
        """The first piece of the line, and the first of the next line."""
        start, end = index, index
        while start > 0 and "\n" not in self.pieces[start - 1].text:
            start -= 1
        while end < len(self.pieces) and "\n" not in self.pieces[end].text:
            end += 1
        return start, end


def fitting(type):
    """The text of a value of a type, on one line."""
    good = Good.__new__(Good)
    good.pieces, good.entries, good.quote, good.keys, good.last_comma, good.notes = [], [], "'", "", False, 0
    good.line_end, good.pad, good.one_line, good.indent = "\n", " ", 1, "  "
    good.value(type, (), 1, True)
    return "".join(piece.text for piece in good.pieces)


# ---- ways of breaking: each makes a broken text of a good file, or None where it has no place for it

WAYS = {}
TEXTS, KEY, NUMBER, COMMENT = ("text", "enum"), ("key",), ("number",), ("comment",)
VALUES = TEXTS + NUMBER


def way(function):
    WAYS[function.__name__] = function
    return function


def swapped(name, kinds, make, where=lambda piece: True):
    """A way that replaces one piece."""
    def broken(good):
        index = good.some(*kinds, where=where)
        return None if index is None else good.made({index: make(good.pieces[index])})
    WAYS[name] = broken


def written(name, kinds, *forms, where=lambda piece: True):
    """A way that writes one piece in one of these forms. In a form stand its text, what is in its quotes, its quote, its value and its
    field's name."""
    def make(piece):
        field = [step for step in piece.path if isinstance(step, str)][-1:]
        parts = {"text": piece.text, "inside": piece.text[1:-1], "quote": piece.text[0], "value": piece.value, "field": "".join(field)}
        return re.sub("<(text|inside|quote|value|field)>", lambda part: str(parts[part[1]]), chance.choice(forms))
    swapped(name, kinds, make, where)


def is_inner(piece):
    return piece.path != ()


def is_name(piece):
    return re.fullmatch(r"\w+", piece.value)


def is_like(test):
    return lambda piece: re.fullmatch(test, piece.value)


def misspelled(piece):
    name = piece.value
    at = chance.randrange(1, len(name))
    before, letter, behind = name[:at], name[at], name[at + 1:]
    made = chance.choice([behind, letter + letter + behind, chance.choice("aeioukmnrst") + behind])
    return piece.text.replace(name, chance.choice([before + made, before + made, before + made, before[:-1] + letter + before[-1] + behind]))


@way
def bracket_open_at_end(good):
    last = max(i for i, piece in enumerate(good.pieces) if piece.kind == "close")
    return good.made({last: ""})


@way
def bracket_open_in_middle(good):
    index = good.some("close", where=is_inner)
    changes = {index: ""}
    is_alone = "\n" in good.pieces[index - 1].text
    if good.pieces[index + 1].kind == "comma" and (is_alone or chance.random() < 0.3):
        # the line of the bracket is gone, or its comma
        changes[index + 1] = ""
    return good.made(changes)


@way
def parentheses_for_brackets(good):
    index = good.some("close", where=lambda piece: piece.text == "]")
    return None if index is None else good.made({index: ")", good.pieces[index].value: "("})


swapped("bracket_of_other_kind", ["close"], lambda piece: "}" if piece.text == "]" else "]")
swapped("bracket_opens_other_kind", ["open"], lambda piece: "{" if piece.text == "[" else "[")
written("bracket_too_many_in_middle", ["close"], "<text>]", "<text>}", where=is_inner)
written("bracket_not_opened", ["open"], "", where=is_inner)
written("comma_missing", ["comma"], "")
written("comma_doubled", ["comma"], ",,", ", ,")
written("comma_in_front", ["open"], "<text>,")
written("semicolon_for_comma", ["comma"], ";")
written("colon_missing", ["colon"], "")
written("colon_doubled", ["colon"], "::")
written("equals_for_colon", ["colon"], " =", "=", " =>", " :=")
written("comma_for_colon", ["colon"], ",")
written("value_missing", VALUES, "")


written("text_bare_word", TEXTS, "<value>", where=is_like("[a-z]+|[A-Z]+"))
written("text_bare_blanks", TEXTS, "<value>", where=is_like(r"\w+( \w+)+"))
written("text_bare_path", TEXTS, "<value>", where=is_like("[.~]?/[^ {}*?]*"))
written("text_bare_path_of_signs", TEXTS, "<value>", where=is_like("/.*[ {}*].*"))
written("text_bare_windows_path", TEXTS, "<value>", where=is_like(r"[A-Z]:\\.*"))
written("text_bare_url", TEXTS, "<value>", where=is_like("https?://.*"))
written("text_bare_address", TEXTS, "<value>", where=is_like(r"[0-9.]+(:\d+)?"))
written("text_bare_host", TEXTS, "<value>", where=is_like(r"[a-z-]+(\.[a-z]+)+"))
swapped("quote_missing_in_front", TEXTS, lambda piece: piece.text[1:])
swapped("quote_missing_behind", TEXTS, lambda piece: piece.text[:-1])
swapped("quotes_of_two_kinds", TEXTS, lambda piece: piece.text[:-1] + ("'" if piece.text[-1] == '"' else '"'))
written("quotes_curly", TEXTS, "\u2018<inside>\u2019", "\u201c<inside>\u201d", "\u201e<inside>\u201c", "\u00ab<inside>\u00bb", "\u2019<inside>\u2019")
written("quotes_back", TEXTS, "`<inside>`")
written("quotes_triple", TEXTS, "<quote><quote><text><quote><quote>")
written("quotes_doubled", TEXTS, "<quote><text><quote>")
written("quote_inside", ["text"], "<quote>the shop<quote>s<quote>", "<quote>rock <quote>n roll<quote>", "<quote>it<quote>s<quote>")
written("backslashes_single", ["text"], "<quote><value><quote>", where=lambda piece: "\\" in piece.value)
swapped("text_over_two_lines", ["text"], lambda piece: piece.text[:3] + "\n    " + piece.text[3:])
swapped("texts_added", ["text"], lambda piece: piece.text[:2] + piece.text[0] + " + " + piece.text[0] + piece.text[2:])
written("quote_with_prefix", TEXTS, "r<text>", "f<text>", "b<text>", "u<text>")
written("number_for_text", ["text"], "80", "8443", "1.5", "0x50")
written("true_for_text", ["text"], "true", "false")
written("other_for_text", ["text"], "{}", "[]", "{ name: <text> }", "[<text>]")
written("other_for_number", NUMBER, "auto", "eighty", "http", "[<text>]", "{ value: <text> }")
written("number_quoted", NUMBER, "'<text>'", '"<text>"')
written("number_with_unit", NUMBER, *["<value>" + unit for unit in ("MB", "k", "K", "s", "ms", "px", "%", " MB", "KiB", "/tcp")])
written("number_quoted_with_unit", NUMBER, "'<value>MB'", "'<value>k'", "'<value>s'", "'<value> MB'")
swapped("number_with_thousands", NUMBER, lambda piece: "{:,}".format(piece.value).replace(",", chance.choice(",, _'")), lambda piece: piece.value > 999)
written("number_with_leading_zero", NUMBER, "0<value>", "0<value>", "00<value>")
swapped("number_too_large", NUMBER, lambda piece: chance.choice([str(piece.type[1] + chance.choice([1, 99999])), "%d" % piece.value + "0" * 18, "9" * 44]))
written("number_negative", NUMBER, "-<value>")
written("number_with_exponent", NUMBER, "1e3", "8.192e3", "<value>e0", "<value>e0", "<value>.0", "<value>.")
written("number_with_fraction", NUMBER, "<value>.5", "<value>.25", "<value>.125")
swapped("number_of_hex_misspelled", NUMBER, lambda piece: hex(piece.value) + chance.choice("GgOlhz"))
written("number_with_two_points", NUMBER, "<value>.0.1", "1.<value>.3", "<value>.0.0")
swapped("number_in_other_base", NUMBER, lambda piece: chance.choice([oct, bin])(piece.value))
written("number_with_sign", NUMBER, "--<value>", "- <value>", ">=<value>", "~<value>", "#<value>")
written("number_as_range_or_address", NUMBER, "<value>:80", "<value>-9000", "127.0.0.1", "<value>/tcp", "127.0.0.1:<value>", "80/<value>")
written("range_or_address_quoted", NUMBER, "'<value>:80'", "'80-<value>'", "'<value>/tcp'", "':<value>'", "'127.0.0.1:<value>'")
swapped("number_with_letters", NUMBER, lambda piece: str(piece.value).replace("0", "O", 1), lambda piece: "0" in str(piece.value))
written("number_computed", NUMBER, "2**10", "1 << 10", "2^10", "8000 + 443")
written("number_of_others", NUMBER, "<value>n", "<value>u64", "<value>L", "<value> (as before)", "<value>'", '<value>"')
written("several_values", NUMBER, "<text>, 443", "<text>, 80, 443", "80 | <value>", "<value> || 80")
written("several_texts", TEXTS, "<text>, 'b.example'", "<text> | 'b'", "<text> or 'b'")
written("null", VALUES, "null")
written("null_of_others", VALUES, "None", "nil", "undefined", "NULL", "~")
written("yes_and_true", VALUES, "yes", "no", "on", "off", "True", "False")
swapped("enum_misspelled", ["enum"], misspelled)
swapped("enum_in_other_case", ["enum"], lambda piece: piece.text.replace(piece.value, chance.choice([piece.value.swapcase(), piece.value.title()])))
written("enum_as_path", ["enum"], "Level.<value>", "LogLevel::<value>", "Settings.Level.<value>", where=is_like("[A-Z]+"))
written("enum_of_choices", ["enum"], "<value> | other", "<text> | 'other'", "<text> | 'b' | 'c'")
written("enum_in_object", ["enum"], "{ level: <text> }", "{ name: <text> }", "{ level: <text>, file: 'a.log' }")
written("enum_as_other_value", ["enum"], "5", "true", "false", "{}", "{ <value>: {} }", "[<text>]")
written("variable", VALUES, "${<field>}", "$<field>", "process.env.<field>", "env(<field>)", "{{ <field> }}", "process.env.<field> || <text>", "%<field>%")
written("expression", NUMBER, "<value> * 1024", "8 + <value>", "1 << 20", "<value>*2")
swapped("field_misspelled", KEY, misspelled, is_name)
swapped("field_in_other_case", KEY, lambda piece: piece.text.replace(piece.value, chance.choice([piece.value.title(), piece.value.upper()])), is_name)
swapped("key_with_dash", KEY, lambda piece: piece.value.replace("_", "-"), lambda piece: "_" in piece.value)
written("key_without_quotes", KEY, "<value>", where=lambda piece: not is_name(piece))
written("key_with_sign", KEY, "<value>?", "<value>*", where=is_name)
written("key_in_curly_quotes", KEY, "\u201c<value>\u201d")
written("key_quote_missing", KEY, "'<value>", "<value>'")
written("sign_of_full_width", ["colon"], "\uff1a", "\u2236")
written("comma_of_full_width", ["comma"], "\uff0c", "\uff1b", "\u3001")
swapped("bracket_of_full_width", ["open"], lambda piece: chr(ord(piece.text) + 0xFEE0))
swapped("digits_of_full_width", NUMBER, lambda piece: "".join(chr(ord(c) + 0xFEE0) for c in str(piece.value)))
written("quotes_of_full_width", TEXTS, "\uff07<inside>\uff07", "\uff02<inside>\uff02", "\u2032<inside>\u2032")
written("quote_curly_on_one_side", TEXTS, "\u2018<inside><quote>", "<quote><inside>\u2019", "\u201c<inside><quote>")
written("text_behind_its_type", TEXTS, "string = <text>", "String = <text>")
written("backslash_before_quote", ["text"], "<quote>C:\\\\tls\\<quote>")
written("zero_width_space", VALUES + ("key", "colon", "open"), "\u200b<text>", "<text>\u200b")
swapped("byte_order_mark_inside", ("key", "number"), lambda piece: piece.text[:1] + "\ufeff" + piece.text[1:])
written("control_character", ("key", "number", "comma", "open"), *[form for sign in "\x00\x01\x08\x1b" for form in (sign + "<text>", "<text>" + sign)])
swapped("comment_by_hash", COMMENT, lambda piece: "# " + piece.text[3:], lambda piece: piece.text[1] == "/")
swapped("comment_of_others", COMMENT, lambda piece: chance.choice(["-- ", "; ", "<!-- "]) + piece.text[3:], lambda piece: piece.text[1] == "/")
swapped("comment_by_one_slash", COMMENT, lambda piece: piece.text[1:], lambda piece: piece.text[1] == "/")
swapped("comment_without_sign", COMMENT, lambda piece: piece.text[3:], lambda piece: piece.text[1] == "/")
swapped("comment_in_comment", COMMENT, lambda piece: "/* %s /* old */ new */" % piece.text[3:-2], lambda piece: piece.text[1] == "*")
written("comment_ended_twice", COMMENT, "<text> */", where=lambda piece: piece.text[1] == "*")
swapped("comment_not_closed", COMMENT, lambda piece: piece.text[:-2], lambda piece: piece.text[1] == "*")


written("entities_of_html", TEXTS, "&quot;<inside>&quot;", "&#39;<inside>&#39;", "&apos;<inside>&apos;")
written("key_in_entities", KEY, "&quot;<value>&quot;", "&#39;<value>&#39;")
swapped("entity_in_text", ["text"], lambda piece: piece.value.replace("&", "&amp;"), lambda piece: "&" in piece.value)
ALIKE = dict(zip("aceiopxyhkmtu", "\u0430\u0441\u0435\u0456\u043e\u0440\u0445\u0443\u04bb\u03ba\u043c\u0442\u03c5"))


def with_other_letter(piece):
    at = chance.choice([place for place, letter in enumerate(piece.value) if letter in ALIKE])
    other = chance.choice([ALIKE[piece.value[at]], chr(ord(piece.value[at]) + 0xFEE0)])
    return piece.text.replace(piece.value, piece.value[:at] + other + piece.value[at + 1:])


swapped("field_with_other_letter", KEY, with_other_letter, lambda piece: is_name(piece) and set(piece.value) & set(ALIKE))
swapped("enum_with_other_letter", ["enum"], with_other_letter, lambda piece: set(piece.value) & set(ALIKE))
written("placeholder", VALUES, "...", "\u2026", "<<field>>", "TODO", "xxx", "CHANGEME", "your-<field>", "???", "@<field>@")


def is_field(entry):
    return isinstance(entry.path[-1], str)


@way
def setting_of_a_shell(good):
    entry = good.entry(lambda entry: is_field(entry) and entry.type[0] == "text" and is_name(good.pieces[entry.start])
        and not re.search(r"[ {}*]", good.pieces[entry.value].value))
    if entry is None:
        return None
    key, value = (good.pieces[index].value for index in (entry.start, entry.value))
    return good.made({i: "%s=%s" % (key.upper(), value) if i == entry.start else "" for i in range(entry.start, entry.end)})


@way
def placeholder_for_collection(good):
    entry = good.entry(lambda entry: entry.type[0] in ("struct", "map", "list"))
    new = chance.choice(["...", "TODO", "<%s>" % entry.path[-1], "\u2026"])
    return good.made({i: new if i == entry.value else "" for i in range(entry.value, entry.end)})


@way
def placeholder_among_members(good):
    return at_line(good, lambda blank: blank.split("\n")[-1] + chance.choice(["...", "...,", "\u2026"]) + blank)


@way
def file_breaks_off(good):
    end = len(good.pieces)
    while good.pieces[end - 1].kind in ("close", "blank", "comma", "comment"):
        end -= 1
    closes = [piece for piece in good.pieces[end:] if piece.kind == "close"]
    return "".join(piece.text for piece in good.pieces[:end]) if len(closes) > 1 else None


@way
def section_twice(good):
    entry = good.entry(lambda entry: len(entry.path) == 1 and entry.type[0] in ("struct", "list", "map"))
    root = good.some("open", where=lambda piece: piece.path == ())
    return good.made({root: "{" + good.pieces[root + 1].text + good.text_of(entry) + ","})


@way
def bracket_closes_too_early(good):
    # behind the last value of an object of several lines, which another one of the same kind closes
    ends = [entry for entry in good.entries if entry.path[:-1] and good.pieces[entry.owner].text == "{"
        and "\n" in good.pieces[entry.owner + 1].text]
    if not ends:
        return None
    entry = chance.choice(ends)
    return good.made({entry.end - 1: good.pieces[entry.end - 1].text + chance.choice([" }", "}"])})


@way
def one_for_list(good):
    entry = good.entry(lambda entry: entry.type[0] == "list" and entry.end - entry.value > 3)
    if entry is None:
        return None
    first = next(inner for inner in good.entries if inner.path == entry.path + (0,))
    return good.made({i: "" for i in range(entry.value, entry.end) if not first.value <= i < first.end})


def methods(good):
    """The entry that is a list of methods, and their texts; None and none where there is no such entry."""
    entry = good.entry(lambda entry: entry.type == ("list", METHODS))
    pieces = good.pieces[entry.value:entry.end] if entry else []
    return entry, [piece.value for piece in pieces if piece.kind == "enum"]


@way
def elements_without_brackets(good):
    entry, texts = methods(good)
    if entry is None:
        return None
    new = chance.choice(["'%s'" % ", ".join(texts), ", ".join("'%s'" % text for text in texts), ", ".join(texts)])
    return good.made({i: new if i == entry.value else "" for i in range(entry.value, entry.end)})


@way
def object_for_list(good):
    entry, texts = methods(good)
    if entry is None:
        return None
    forms = [", ".join("%s: true" % text for text in texts), ", ".join("%d: '%s'" % pair for pair in enumerate(texts)), ", ".join("'%s'" % text for text in texts)]
    new = "{ %s }" % chance.choice(forms)
    return good.made({i: new if i == entry.value else "" for i in range(entry.value, entry.end)})


@way
def map_for_list(good):
    entry = good.entry(lambda entry: entry.type[0] == "list" and entry.type[1][0] == "struct")
    first = next((inner for inner in good.entries if entry and inner.path == entry.path + (0,)), None)
    if first is None:
        return None
    new = "{ first: %s, second: %s }" % (good.value_of(first), good.value_of(first))
    return good.made({i: new if i == entry.value else "" for i in range(entry.value, entry.end)})


@way
def words_before_bracket(good):
    index = good.some("open", where=is_inner)
    return good.made({index: chance.choice(["&main ", "new ", "Server "]) + good.pieces[index].text})


@way
def other_for_collection(good):
    entry = good.entry(lambda entry: entry.type[0] in ("struct", "map", "list"))
    new = chance.choice(["'none'", "null", "5", "false", "none", "''"])
    return good.made({i: new if i == entry.value else "" for i in range(entry.value, entry.end)})


def moved(good, entry, brace, member):
    """The text without an entry, and with this member at the front of the object that a piece opens."""
    changes = good.without(entry)
    changes[brace] = "{" + good.pieces[brace + 1].text + member + ","
    return good.made(changes)


def moved_out(good, member_of):
    """The text in which a field of a section stands before the sections, as the member that is made of it."""
    entry = good.entry(lambda entry: len(entry.path) == 2 and is_field(entry) and entry.path[0] != "routes")
    return moved(good, entry, good.some("open", where=lambda piece: piece.path == ()), member_of(entry))


@way
def field_too_deep(good):
    entry = good.entry(lambda entry: len(entry.path) == 1 and entry.type[0] in ("enum", "number"))
    target = good.some("open", where=lambda piece: piece.path == ("server",) or len(piece.path) == 1 and piece.type[0] == "struct")
    if entry is None or target is None:
        return None
    return moved(good, entry, target, good.text_of(entry))


@way
def field_too_high(good):
    return moved_out(good, good.text_of)


@way
def dotted_name_beside(good):
    quote = chance.choice(["", "", "'"])
    return moved_out(good, lambda entry: quote + ".".join(entry.path) + quote + ": " + good.value_of(entry))


@way
def dotted_name_instead(good):
    entry = good.entry(lambda entry: len(entry.path) == 1 and entry.type[0] == "struct")
    inner = [part for part in good.entries if part.path[:-1] == entry.path and part.path[-1] in ("host", "body", "header")]
    if not inner:
        return None
    line = ".".join(inner[0].path) + ": " + good.value_of(inner[0])
    return good.made({i: line if i == entry.start else "" for i in range(entry.start, entry.end)})


@way
def field_missing(good):
    def is_required(entry):
        owner = good.pieces[entry.owner].type
        return owner[0] == "struct" and owner[1][entry.path[-1]][1]
    return good.made(good.without(good.entry(is_required)))


@way
def quotes_around_both(good):
    entry = good.entry(lambda entry: is_field(entry) and entry.end - entry.value == 1 and entry.type[0] == "enum")
    if entry is None:
        return None
    new = "'%s: %s'" % (entry.path[-1], good.pieces[entry.value].value)
    return good.made({i: new if i == entry.start else "" for i in range(entry.start, entry.end)})


@way
def key_twice(good):
    entry = good.entry(is_field)
    return good.made({entry.start: good.text_of(entry) + "," + (good.pieces[entry.start - 1].text or " ") + good.pieces[entry.start].text})


# ---- ways of breaking of whole files: of another kind, and what editors and other programs leave

# how a hint may name them
KINDS = {"toml": "TOML|INI", "ini": "INI|TOML", "yaml": "YAML", "html": "HTML|XML|HTML or XML", "javascript": "JavaScript|a JavaScript module"}


def toml_of(tree, prefix=""):
    lines, below = [], []
    for key, value in tree.items():
        name = key if re.fullmatch(r"\w+", key) else '"%s"' % key
        if isinstance(value, dict):
            below += ["", "[%s%s]" % (prefix, name)] + toml_of(value, prefix + name + ".")
        elif isinstance(value, list) and value and isinstance(value[0], dict):
            for one in value:
                below += ["", "[[%s%s]]" % (prefix, name)] + toml_of(one, prefix + name + ".")
        elif isinstance(value, list):
            lines.append("%s = [%s]" % (name, ", ".join('"%s"' % one for one in value)))
        else:
            lines.append("%s = %s" % (name, '"%s"' % value.replace("\\", "\\\\") if isinstance(value, str) else value))
    return lines + below


def yaml_of(tree, indent=""):
    lines = []
    for key, value in tree.items() if isinstance(tree, dict) else [(None, one) for one in tree]:
        head = indent + ("-" if key is None else key + ":")
        if isinstance(value, (dict, list)):
            inner = yaml_of(value, indent + "  ")
            lines += [head + " " + inner[0].strip()] + inner[1:] if key is None else [head] + inner
        else:
            lines.append("%s %s" % (head, value))
    return lines


def flat_of(tree, prefix=""):
    for key, value in tree.items() if isinstance(tree, dict) else enumerate(tree):
        if isinstance(value, (dict, list)):
            yield from flat_of(value, prefix + str(key) + ".")
        else:
            yield prefix + str(key), value


@way
def toml(good):
    return chance.choice(["", "# The shop\n"]) + "\n".join(toml_of(good.tree)).lstrip() + "\n"


@way
def yaml(good):
    return chance.choice(["", "---\n", "# The shop\n"]) + "\n".join(yaml_of(good.tree)) + "\n"


@way
def ini(good):
    if chance.random() < 0.5:
        return "".join("%s=%s\n" % pair for pair in flat_of(good.tree))
    return chance.choice(["", "; The shop\n"]) + "[server]\n" + "".join("%s = %s\n" % pair for pair in flat_of(good.tree["server"]))


@way
def html(good):
    if chance.random() < 0.3:
        inner = "".join("  <%s>%s</%s>\n" % (key, value, key) for key, value in good.tree["server"].items() if not isinstance(value, dict))
        return chance.choice(["", '<?xml version="1.0"?>\n']) + "<server>\n%s</server>\n" % inner
    return chance.choice(["<!DOCTYPE html>\n<html><body>404 Not Found</body></html>\n", "<html>\n<head><title>Error</title></head>\n</html>\n"])


@way
def javascript(good):
    front = chance.choice(["module.exports = ", "module.exports = ", "export default ", "const settings = ", "var settings = ", "return "])
    root = good.some("open", where=lambda piece: piece.path == ())
    return good.made({root: front + "{"}).rstrip() + chance.choice([";\n", "\n"])


@way
def ndjson(good):
    return good.text.rstrip() + "\n" + Good(good.schema, True).text + "\n"


@way
def text_after_the_end(good):
    return good.text.rstrip() + chance.choice(["}", " }", "\n}", "]", ";", ",", "\nend", "\n'x'", "\n-- ", " x"]) + "\n"


def at_line(good, new):
    """The text with another front of a line that begins with a member."""
    def is_first(piece):
        return is_inner(piece) and "\n" in good.pieces[good.pieces.index(piece) - 1].text
    index = good.some("key", where=is_first)
    return None if index is None else good.made({index: new(good.pieces[index - 1].text) + good.pieces[index].text})


@way
def command_of_an_editor(good):
    command = chance.choice([":wq", ":w", ":q!", ":x"])
    if chance.random() < 0.5:
        return good.text.rstrip() + "\n" + command + "\n"
    return at_line(good, lambda blank: command + blank)


@way
def template_lines(good):
    line = chance.choice(["{% if tls %}", "{%- for a in b -%}", "{# as before #}", "{{#if tls}}", "{{- end }}", "{% include 'a' %}"])
    return at_line(good, lambda blank: line + blank)


@way
def dash_before_member(good):
    return at_line(good, lambda blank: "- ")


@way
def number_before_line(good):
    number = chance.randrange(2, 40)
    return at_line(good, lambda blank: "%d%s " % (number, chance.choice([":", "", " |", "."])))


@way
def numbers_before_lines(good):
    form = chance.choice(["%d: ", "%3d  ", "%d | ", "%d\t"])
    return "".join(form % (number + 1) + line + "\n" for number, line in enumerate(good.text.splitlines()))


@way
def fences(good):
    front, behind = chance.choice([("```json5\n", "```\n"), ("```\n", "```"), ("```json\n", ""), ("", "```\n"), ("~~~\n", "~~~\n")])
    return front + good.text.rstrip() + "\n" + behind


@way
def lines_of_a_shell(good):
    if chance.random() < 0.3:
        return "".join("> " + line + "\n" for line in good.text.splitlines())
    if chance.random() < 0.5:
        return chance.choice(["$ cat settings.json5\n", "root@web:/etc# cat a.json5\n"]) + good.text
    return good.text.rstrip() + "\n" + chance.choice(["$\n", "user@host:~$\n", "%\n"])


@way
def words_before_the_object(good):
    return chance.choice(["Here is the file:\n\n", "i", "json5\n", "settings = "]) + good.text.lstrip()


@way
def no_outer_braces(good):
    root, last = good.some("open", where=lambda piece: piece.path == ()), good.some("close", where=lambda piece: piece.path == ())
    return good.made({root: "", last: ""})


@way
def merge_marks(good):
    def is_line(entry):
        return is_field(entry) and "\n" in good.pieces[entry.start - 1].text and good.pieces[entry.end].kind == "comma" and entry.end - entry.start < 5
    entry = good.entry(is_line)
    if entry is None:
        return None
    start, end = good.line_of(entry.start)
    line = "".join(piece.text for piece in good.pieces[start:end])
    nl = good.line_end
    indent = good.pieces[start - 1].text.split("\n")[-1]
    new = "<<<<<<< HEAD%s%s%s%s=======%s%s%s%s>>>>>>> feature" % (nl, indent, line, nl, nl, indent, line, nl)
    changes = {i: new if i == start else "" for i in range(start, end)}
    changes[start - 1] = nl
    return good.made(changes)


@way
def diff_marks(good):
    index = good.some("key", where=is_inner)
    start, _ = good.line_of(index)
    blank = good.pieces[start - 1].text
    if "\n" not in blank or not blank.split("\n")[-1]:
        return None
    return good.made({start - 1: good.line_end + chance.choice("+-") + blank.split("\n")[-1][1:]})


@way
def empty(good):
    return chance.choice(["", "\n", "// " + chance.choice(NOTES) + "\n", "/* none */", "  \n\n"])


@way
def utf16(good):
    return good.text.encode(chance.choice(["utf-16-le", "utf-16-be", "utf-16"]))


@way
def latin1(good):
    return good.text.encode("latin-1") if "\u00e9" in good.text else None
