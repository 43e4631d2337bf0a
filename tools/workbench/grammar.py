"""Reads the text of one network or certificate strictly from the left; the first word that doesn't fit is explained."""
import re

from model.texts import LAST_LAWS, LAWS, LAWS_SINCE, OPEN, SORTS, VERSIONS
from model.trees import EXPRESSION_WORDS, NETWORK_SUGAR_WORDS, NETWORK_WORDS, NUMBERS
from workbench.written import Node, SyntaxFault, near, place, tokens_of

KINDS = {"T": "a type", "E": "an expression", "N": "a network"}
COUNTS = ["no", "one", "two", "three", "four", "five"]
PLURALS = {"T": "types", "E": "expressions", "N": "networks"}
NO_DIVISION = ("div", "/", "mod", "rem", "%", "quot")


class Reader:
    """Reads one text from the left."""

    def __init__(self, data):
        self.data = data
        self.tokens, self.left = tokens_of(data)
        self.read = 0
        self.open = []
        self.missing = []

    # ---- words

    def ended(self):
        return self.read == len(self.tokens)

    def peek(self):
        return None if self.ended() else self.tokens[self.read].text

    def take(self, wanted):
        """The next word, where one is wanted."""
        if self.ended():
            raise self.ends(wanted)
        token = self.tokens[self.read]
        self.read += 1
        if token.text == "(":
            if len(self.open) == OPEN:
                raise SyntaxFault(token.at, f"this is the {OPEN + 1}st parenthesis that is open at once", kind="nesting", length=1)
            self.open.append(token)
        elif token.text == ")" and self.open:
            self.open.pop()
        return token

    def ends(self, wanted):
        if not self.open:
            return SyntaxFault(len(self.data), f"the file ends, and {wanted} is missing", length=1)
        first = self.open[-1]
        line, column = place(self.data, first.at)
        count = len(self.open)
        still = "1 parenthesis is" if count == 1 else f"{count} parentheses are"
        return SyntaxFault(
            len(self.data),
            f"the file ends, {still} still open; {wanted} is wanted",
            f"write {')' * min(count, 12)} where the part that begins at {line}:{column} is whole",
            length=1,
            also=[(first.at, "this parenthesis is never closed")],
        )

    # ---- headers

    def header(self):
        """The words `yampa`, the version and `input`."""
        texts = [token.text for token in self.tokens[:3]]
        if len(texts) < 3 or texts[0] != "yampa" or texts[1] not in VERSIONS["yampa"] or texts[2] != "input":
            raise self.no_header(texts)
        self.read, self.missing = 3, VERSIONS["yampa"][texts[1]]
        return texts[1]

    def no_header(self, texts):
        data = self.data
        mend = "a network's file begins with `yampa 1`, then `input` and a type"
        if not data.strip():
            return SyntaxFault(0, "the file is empty", mend, "header")
        if data.startswith(b"\xef\xbb\xbf"):
            return SyntaxFault(0, "the file begins with a byte order mark", "save it as UTF-8 without one", "header", 3)
        if data[:2] in (b"\xff\xfe", b"\xfe\xff") or b"\0" in data[:40]:
            return SyntaxFault(0, "the file is written in UTF-16", "save it as UTF-8", "header", 2)
        if texts[:1] == ["laws"]:
            return SyntaxFault(self.tokens[0].at, "this is a certificate, and a network is wanted", "look at the order of the files", "header", 4)
        if not texts:
            return SyntaxFault(0, "the file has comments alone", mend, "header")
        if texts[0] != "yampa":
            why = "this looks like a stream" if re.match(r"^\+?-?[0-9]|^\(|^(unit|true|false|none)$", texts[0]) else "the word yampa is missing"
            return SyntaxFault(self.tokens[0].at, why, mend, "header", len(texts[0]))
        if len(texts) < 2 or texts[1] not in VERSIONS["yampa"]:
            at = self.tokens[1].at if len(texts) > 1 else len(data)
            return SyntaxFault(at, "behind yampa stands the version, 1 or 2", mend, "header")
        at = self.tokens[2].at if len(texts) > 2 else len(data)
        return SyntaxFault(at, "the word input is missing", "write `input` and the type of the samples", "header")

    # ---- numbers

    def number(self, kind, form=None):
        token = self.take("a number")
        text = token.text
        if not re.fullmatch(r"-?[0-9]+", text):
            raise self.no_number(token, kind, form)
        least, greatest = NUMBERS[kind]
        if not re.fullmatch(r"0|-?[1-9][0-9]*", text):
            raise SyntaxFault(token.at, "a number is written without leading zeros, and 0 without a sign", f"write {int(text)}", "number", len(text))
        if not least <= int(text) <= greatest:
            raise SyntaxFault(token.at, f"this number is from {least} to {greatest}", kind="number", length=len(text))
        return leaf_node(int(text), token, "number")

    def no_number(self, token, kind, form):
        if kind == "literal":
            return self.unknown(token, "E")
        if kind == "child":
            return SyntaxFault(token.at, "a position is made of numbers", "write for instance (at 0 1)", length=len(token.text))
        what = {"level": f"{form} is followed by a number from 0"}.get(kind, f"the first part of {form} is a number that stands in the file; it can't be computed")
        if token.text == ")":
            return SyntaxFault(token.at, f"{form} wants a number")
        return SyntaxFault(token.at, what, length=len(token.text))

    # ---- trees

    def tree(self, sort):
        words, forms = SORTS[sort]
        token = self.take(KINDS[sort])
        if token.text == "(":
            return self.form(sort, forms, token)
        if token.text in words:
            return leaf_node(token.text, token, sort)
        if sort == "E" and re.fullmatch(r"-?[0-9]+", token.text):
            self.read -= 1
            node = self.number("literal")
            node.sort = "E"
            return node
        raise self.unknown(token, sort)

    def any_tree(self, wanted):
        """A word, a number, or what stands between parentheses, whatever it means."""
        if self.peek() == ")":
            self.end()
        token = self.take(wanted)
        if token.text == "(":
            parts = []
            while self.peek() != ")":
                parts.append(self.any_tree("a parenthesis that closes it"))
            self.take("")
            return tuple(parts)
        if not re.fullmatch(r"-?[0-9]+", token.text):
            return token.text
        self.read -= 1
        return self.number("literal").word

    def form(self, sort, forms, opened):
        token = self.take("the word of a form")
        word = token.text
        if word not in forms or word in self.missing:
            raise self.no_form(token, sort)
        parts = self.parts(word, forms[word])
        closed = self.close(word, forms[word], opened)
        return form_node(opened, token, parts, closed, sort)

    def parts(self, word, sorts):
        found = []
        for sort in sorts:
            if sort == "col":
                found.append(self.members(word))
            elif sort.endswith("*"):
                while self.peek() not in (")", None):
                    found.append(self.tree(sort[0]))
            elif sort in NUMBERS:
                found.append(self.number(sort, word))
            elif self.peek() == ")":
                raise self.too_few(word, sorts, len(found))
            else:
                found.append(self.tree(sort))
        return found

    def members(self, word):
        mend = f"the members of {word} stand in a list: (col f g)"
        opened = self.take("a list of members")
        if opened.text != "(":
            raise SyntaxFault(opened.at, f"{word} wants a list of members here", mend, length=len(opened.text))
        token = self.take("the word col")
        if token.text != "col":
            raise SyntaxFault(token.at, f"{word} wants a list of members here", mend, length=len(token.text))
        found = []
        while self.peek() not in (")", None):
            found.append(self.tree("N"))
        closed = self.take("a parenthesis that closes the list of members")
        return form_node(opened, token, found, closed, "col")

    def close(self, word, sorts, opened):
        if self.peek() == ")":
            return self.take("")
        if self.ended():
            raise self.ends(f"a parenthesis that closes {word}")
        token = self.tokens[self.read]
        line, column = place(self.data, opened.at)
        mend = f"or a ) is missing in a part of {word}, which begins at {line}:{column}"
        if word == ">>>":
            mend = "write (>>> f (>>> g h)), " + mend
        raise SyntaxFault(token.at, f"{word} takes {takes(sorts)}; this is one part more", mend, length=len(token.text), also=[(opened.at, f"{word} begins here")])

    def too_few(self, word, sorts, count):
        token = self.tokens[self.read]
        has = "none" if not count else f"{COUNTS[count] if count < 6 else count} only"
        mend = f"write ({word} {' '.join(spelt(sort) for sort in sorts)})"
        return SyntaxFault(token.at, f"{word} takes {takes(sorts)}, and has {has}", mend, length=1)

    # ---- what doesn't fit

    def no_form(self, token, sort):
        word, length = token.text, len(token.text)
        words, forms = SORTS[sort]
        if word == ")":
            return SyntaxFault(token.at, f"() is nothing; {KINDS[sort]} is wanted", length=1)
        if word == "(":
            return SyntaxFault(token.at, "behind ( stands the word of a form", "leave out one pair of parentheses", length=1)
        if word in self.missing:
            return SyntaxFault(token.at, f"{word} is a form of version 2", "write `yampa 2` in the first line", length=length)
        if word in words or word in SORTS["E"][0] + SORTS["N"][0] + SORTS["T"][0]:
            return SyntaxFault(token.at, f"{word} stands without parentheses", f"write {word}", length=length)
        if re.fullmatch(r"-?[0-9.]+", word):
            return SyntaxFault(token.at, "a number stands without parentheses", length=length)
        return self.of_other_sort(token, sort) or self.unknown_word(token, sort, list(forms))

    def of_other_sort(self, token, sort):
        word, length = token.text, len(token.text)
        for other in "ENT":
            if other != sort and word in SORTS[other][1]:
                mend = f"write (arr ({word} ..))" if (sort, other) == ("N", "E") else ""
                if (sort, other) == ("E", "N"):
                    mend = "networks stand outside of arr, joined by >>>"
                return SyntaxFault(token.at, f"{word} is {KINDS[other]}, and {KINDS[sort]} is wanted here", mend, length=length)
        return None

    def unknown(self, token, sort):
        word, length = token.text, len(token.text)
        words, forms = SORTS[sort]
        if word == ")":
            return SyntaxFault(token.at, f"{KINDS[sort]} is wanted before this parenthesis", length=1)
        if word in self.missing:
            return SyntaxFault(token.at, f"{word} is a word of version 2", "write `yampa 2` in the first line", length=length)
        if word in forms:
            return SyntaxFault(token.at, f"{word} has parts: it stands in parentheses", f"write ({word} {' '.join(spelt(part) for part in forms[word])})", length=length)
        if sort == "N" and (word in EXPRESSION_WORDS or re.fullmatch(r"-?[0-9]+", word)):
            return SyntaxFault(token.at, f"{word} is an expression, and a network is wanted here", f"write (arr {word}) or (constant {word})", length=length)
        if sort == "E" and word in NETWORK_WORDS + NETWORK_SUGAR_WORDS:
            return SyntaxFault(token.at, f"{word} is a network, and an expression is wanted here", "networks stand outside of arr, joined by >>>", length=length)
        return self.unknown_word(token, sort, [*words, *forms])

    def unknown_word(self, token, sort, known):
        word, length = token.text, len(token.text)
        if re.fullmatch(r"\+[0-9]+", word):
            return SyntaxFault(token.at, "a number has no plus sign", f"write {word[1:]}", length=length)
        if re.fullmatch(r"-?[0-9]*\.[0-9]+(e.*)?", word):
            return SyntaxFault(token.at, "numbers are whole", "count in smaller units, as tenths", length=length)
        if word[:1] in "\"'":
            return SyntaxFault(token.at, "there are no texts", "write numbers for the cases", length=length)
        if word in NO_DIVISION:
            return SyntaxFault(token.at, f"unknown word {word}: there is no division", "compare products instead, or count in other units", length=length)
        meant = near(word, known)
        if meant:
            return SyntaxFault(token.at, f"unknown word {word}; did you mean {meant}?", length=length)
        return SyntaxFault(token.at, f"unknown word {word}: {KINDS[sort]} is wanted here", length=length)

    def end(self):
        """That nothing follows."""
        if self.ended():
            return
        token = self.tokens[self.read]
        if token.text == ")":
            raise SyntaxFault(token.at, "one ) too many", "leave it out, or a ( is missing before", length=1)
        if token.text == "yampa":
            raise SyntaxFault(token.at, "a second file begins here", "a file has one network", length=5)
        raise SyntaxFault(token.at, "the network is whole before this", "a file has one network; join networks by >>>", length=len(token.text))

    # ---- certificates

    def step(self):
        start = self.take("a step")
        wanted = "a step is (step LAW forward (at ..)), or (step LAW backward (at ..) TREE)"
        if start.text != "(":
            raise SyntaxFault(start.at, "a step begins with a parenthesis", wanted, length=len(start.text))
        self.word("step", wanted)
        law = self.take("a law")
        if law.text not in LAWS or law.text in self.missing:
            raise self.no_law(law)
        direction = self.take("a direction")
        if direction.text not in ("forward", "backward"):
            raise SyntaxFault(direction.at, "behind the law stands forward or backward", wanted, length=len(direction.text))
        position = self.position(wanted)
        given = None if self.peek() == ")" else self.tree("N" if law.text[0] == "L" else "E")
        end = self.take("a parenthesis that closes the step")
        if end.text != ")":
            raise SyntaxFault(end.at, "the step is whole before this", wanted, length=len(end.text))
        return law.text, direction.text, position, given, start.at, end.end()

    def no_law(self, token):
        if token.text in self.missing:
            version = next(version for version, laws in LAWS_SINCE.items() if token.text in laws)
            return SyntaxFault(token.at, f"{token.text} is a law of version {version}", f"write `laws {version}` in the first line", length=len(token.text))
        ranges = " and ".join(f"{kind}1 to {kind}{last}" for kind, last in LAST_LAWS[max(LAST_LAWS)].items())
        return SyntaxFault(token.at, f"unknown law {token.text}", f"laws are {ranges}", length=len(token.text))

    def word(self, word, mend):
        token = self.take(f"the word {word}")
        if token.text != word:
            raise SyntaxFault(token.at, f"the word {word} is missing", mend, length=len(token.text))

    def position(self, mend):
        token = self.take("a position")
        if token.text != "(":
            raise SyntaxFault(token.at, "a position is wanted, as (at 0 1)", mend, length=len(token.text))
        self.word("at", mend)
        found = []
        while self.peek() not in (")", None):
            found.append(self.number("child").word)
        self.take("a parenthesis that closes the position")
        return tuple(found)


def leaf_node(word, token, sort):
    """The node of a word or a number, with its comments."""
    return Node(word, [], token.at, token.end(), sort, token.before, token.behind)


def form_node(opened, head, parts, closed, sort):
    """The node of a form between these parentheses, with its comments."""
    comments = [*opened.before, *opened.behind, *head.before]
    return Node(head.text, parts, opened.at, closed.end(), sort, comments, closed.behind, head.behind, closed.before)


def takes(sorts):
    """What a form takes, in words."""
    names = []
    for sort in sorts:
        name = "a number" if sort in NUMBERS else KINDS.get(sort) or ("a list of members" if sort == "col" else f"{PLURALS[sort[0]]}, as many as you like")
        names.append(name)
    same = sorts[0] if len(set(sorts)) == 1 else None
    if same in PLURALS and len(sorts) > 1:
        return f"{COUNTS[len(sorts)]} {PLURALS[same]}"
    return " and ".join(names)


def spelt(sort):
    """A part of a form as a place to fill in."""
    if sort in NUMBERS:
        return "N"
    return {"T": "TYPE", "E": "e", "N": "f", "E*": "e ..", "N*": "f ..", "col": "(col f ..)"}[sort]
