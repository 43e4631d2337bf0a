"""What the model says of the commands that look at a network: its outline, the steps that may be taken, where two differ."""
import re
from os.path import commonprefix

from model.laws import StepFault, answer, laws_by_word, taken
from model.texts import LAWS, Step, step_text
from model.trees import at_text, head, is_network, shown
from model.typed import WEIGHT, weight

# How long a line of a tree is at most, and how deep in brackets what it shows of a longer one; and of a part of a tree how much it
# shows, and how much of that before what differs.
LINE = 100
DEEPEST = 8
PART = 96
FRONT = 20
LAWS_BY_WORD = laws_by_word(LAWS)


def outline_lines(typed):
    """A line for each position in preorder: the position, the word, the type, and of networks the weight."""
    for position, place in in_order(typed):
        tree = place.tree
        columns = [at_text(position), shown(tree).lstrip("(").split(" ")[0], shown(place.output)]
        if is_network(tree):
            columns.append(str(min(weight(tree), WEIGHT + 1)))
        yield "  " * len(position) + "\t".join(columns) + "\n"


def in_order(typed, top=()):
    """The places at and below a position, a node before its children."""
    return sorted((position, place) for position, place in typed.places.items() if position[: len(top)] == top)


def possible_steps(typed, top):
    """Each step forward at and below a position that can be taken, with what stands there and what then does."""
    for position, place in in_order(typed, top):
        steps = [Step(law, "forward", position) for law in LAWS_BY_WORD.get(head(place.tree), [])]
        for step in [step for step in steps if answer(step, place.tree, len(place.scope.olds)) is not None]:
            try:
                yield step, place.tree, taken(typed, step).places[position].tree
            except StepFault:
                pass


def possible_lines(found):
    """The lines of steps that can be taken."""
    return [step_text(step) + "\n- {}\n+ {}\n".format(*cut_pair(shown(before), shown(after))) for step, before, after in found]


def cut_pair(first, second):
    """Two texts, cut; where they differ and that leaves no difference to see, what stands in each around their first difference."""
    cuts = cut(first), cut(second)
    if cuts[0] != cuts[1] or first == second:
        return cuts
    start = max(0, len(commonprefix([first, second])) - FRONT)
    return part_from(start, first), part_from(start, second)


def part_from(start, text):
    """So much of a text from a place on, and two dots for what stands before and behind it."""
    end = start + PART
    return (".." if start else "") + text[start:end] + (".." if end < len(text) else "")


def cut(text):
    """The text; of one that is long what is deep in brackets is left out, as little as makes it fit into a line, or all behind its first word."""
    if len(text) <= LINE:
        return text
    cuts = (to_depth(text, depth) for depth in range(DEEPEST, 0, -1))
    return next((text for text in cuts if len(text) <= LINE), f"{text.split(' ')[0]} ..)")


def to_depth(text, depth):
    """The text with two dots for each part in so many brackets."""
    pieces, open_before = [], 0
    for piece in re.split(r"([()])", text):
        opens = piece == "("
        if open_before <= depth:
            pieces.append(".." if opens and open_before == depth else piece)
        open_before += opens - (piece == ")")
    return "".join(pieces)


def difference_text(position, first, second):
    return "{}\n- {}\n+ {}\n".format(at_text(position), *cut_pair(shown(first), shown(second)))
