"""Networks and certificates as they are written, and what they mean: trees in core forms, with the place of each part."""
import re
from dataclasses import dataclass

from model.texts import FILE_BYTES, VERSIONS
from model.trees import (
    EXPRESSION_FORMS,
    EXPRESSION_SUGAR,
    NETWORK_FORMS,
    NETWORK_SUGAR,
    NETWORK_SUGAR_WORDS,
    NETWORK_WORDS,
    NUMBERS,
    expanded_form,
    expanded_word,
)
from workbench.grammar import Reader
from workbench.written import Node, SyntaxFault


def plain(node):
    """The tree of a node: words, numbers and tuples, in shorter ways where it is written so."""
    if not node.parts and not (node.word in ("parB", "list", "col")):
        return node.word
    return (node.word, *[plain(part) for part in node.parts])


@dataclass(frozen=True)
class Origin:
    """A part of an expansion that stands as it was written."""

    node: Node


def core(node):
    """The tree in core forms, and for each position of it the node that was written there."""
    origins = {}

    def convert(tree, at, owner):
        """The core tree of an expansion of `owner`, whose parts may be origins."""
        while isinstance(tree, Origin):
            owner, tree = tree.node, expansion(tree.node)
        origins[at] = owner
        if not isinstance(tree, tuple):
            return tree
        return with_parts(tree, at, owner)

    def with_parts(tree, at, owner):
        word, *parts = tree
        sorts = {**EXPRESSION_FORMS, **NETWORK_FORMS}[word]
        made, number = [word], 0
        for index, part in enumerate(parts):
            sort = sorts[min(index, len(sorts) - 1)]
            if sort == "T" or sort in NUMBERS:
                made.append(plain(part.node) if isinstance(part, Origin) else part)
            elif sort == "col":
                members = ["col"]
                for member in part.node.parts:
                    members.append(convert(Origin(member), (*at, number), owner))
                    number += 1
                made.append(tuple(members))
            else:
                made.append(convert(part, (*at, number), owner))
                number += 1
        return tuple(made)

    tree = convert(Origin(node), (), node)
    return tree, origins


def expansion(node):
    """What a node means by one step: a word, or a form whose parts are origins."""
    if node.word in SHORT_WORDS:
        return expanded_word(node.word)
    if not node.parts and node.word not in ("parB", "list"):
        return node.word
    parts = [Origin(part) for part in node.parts]
    if node.word in EXPRESSION_SUGAR or node.word in NETWORK_SUGAR:
        return expanded_form(node.word, parts)
    return (node.word, *parts)


SHORT_WORDS = NETWORK_SUGAR_WORDS


@dataclass
class File:
    """A network's file as it was written, and what it means."""

    name: str
    data: bytes
    input: object
    node: Node
    tree: object
    origins: dict
    version: str


def read_words(data):
    """The reader of a network's file, whose version, input type and network, as they are written, follow; or the first word that
    doesn't fit."""
    if len(data) > FILE_BYTES:
        raise SyntaxFault(FILE_BYTES, f"the file has over {FILE_BYTES:,} bytes", kind="too long")
    reader = Reader(data)
    version = reader.header()
    input_type = reader.tree("T")
    node = reader.tree("N")
    reader.end()
    return reader, version, input_type, node


def read_file(name, data):
    """The file, or the first word that doesn't fit."""
    _, version, input_type, node = read_words(data)
    tree, origins = core(node)
    return File(name, data, plain(input_type), node, tree, origins, version)


def tree_of(text, sort):
    """The tree that a text spells, in core forms."""
    node = Reader(text.encode()).tree(sort)
    return plain(node) if sort == "T" else core(node)[0]


def read_part(text):
    """The network or the expression in core forms that is spelt so."""
    word = re.match(r"\(?([^ ()]*)", text).group(1)
    return tree_of(text, "N" if word in NETWORK_FORMS or word in NETWORK_WORDS else "E")


def read_steps(data):
    """The steps of a certificate's file, each with its bytes, or the first word that doesn't fit."""
    if len(data) > FILE_BYTES:
        raise SyntaxFault(FILE_BYTES, f"the file has over {FILE_BYTES:,} bytes", kind="too long")
    reader = Reader(data)
    texts = [token.text for token in reader.tokens[:2]]
    if len(texts) < 2 or texts[0] != "laws" or texts[1] not in VERSIONS["laws"]:
        why = "this is a network, and a certificate is wanted" if texts[:1] == ["yampa"] else "a certificate begins with `laws 1`"
        raise SyntaxFault(reader.tokens[0].at if texts else 0, why, "behind it stand its steps", "header")
    reader.read, reader.missing = 2, VERSIONS["laws"][texts[1]]
    steps = []
    while not reader.ended():
        steps.append(reader.step())
    return steps
