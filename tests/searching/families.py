"""Networks of one kind each, at a size that nobody writes by hand: chains, loops, switches, members, expressions."""

ABOVE = "(arr (pair x (if (less {} x) (event x) (none Int))))"
LOOP = "(loopPre 0 (arr (pair (add (fst x) (snd x)) (add (fst x) (snd x)))))"
RESTARTED = "(>>> (arr (pair x (if (less 9 x) (event x) (none Int)))) (>>> (rSwitch integral (iPre (p 0))) (arr (neg x))))"
SEVENTH = "(arr (if (equal (fst x) 7) (event unit) (none Unit)))"
PAIRED = "(fst (pair (add x {}) (snd (pair x x))))"
SUM_OF_BOTH = "(>>> (&&& (iPre {}) integral) (arr (add (fst x) (snd x))))"


def to_the_right(parts, form=">>>"):
    """A chain of the parts, or another form of two, each before all that come behind it."""
    *front, whole = parts
    for part in reversed(front):
        whole = f"({form} {part} {whole})"
    return whole


def to_the_left(stages):
    """A chain of the stages, each behind all that come before it."""
    chain, *rest = stages
    for stage in rest:
        chain = f"(>>> {chain} {stage})"
    return chain


def balanced(stages):
    """A chain of the stages, in two halves that are nested so too."""
    if len(stages) == 1:
        return stages[0]
    middle = len(stages) // 2
    return f"(>>> {balanced(stages[:middle])} {balanced(stages[middle:])})"


def repeated(times, around, inner="x"):
    """What `around` makes of the inner text, and of that again, so often; it gets the number of the repetition."""
    for number in range(times):
        inner = around(inner, number)
    return inner


def sums(count):
    """Stages that add a number each."""
    return [f"(arr (add x {number}))" for number in range(count)]


def cells(count):
    """Stages that add a number, or keep a sample, in turn."""
    return [f"(arr (add x {number}))" if number % 2 else f"(iPre {number})" for number in range(count)]


def in_turn(count, one):
    """The stage and one that multiplies, in turn."""
    return [one if number % 2 else "(arr (mul x 3))" for number in range(count)]


def switches(times):
    """Switches in what runs behind a switch."""
    last = times - 1
    return repeated(times, lambda inner, k: f"(switch {ABOVE.format(k)} (>>> (arr (add x (p {last - k}))) {inner}))", "(arr x)")


def frozen(times):
    """Networks that freeze others."""
    event = "(arr (if (less (fst x) {}) (event unit) (none Unit)))"
    return repeated(times, lambda inner, k: f"(kSwitch (arr (add x {k})) {event.format(k)} (>>> {inner} (arr (mul x 2))))", "(arr x)")


def members(count):
    """Chains beside one another."""
    stages = cells(38 * count)
    return " ".join(to_the_right(stages[38 * k : 38 * k + 38]) for k in range(count))


def arr(expression):
    return f"(arr {expression})"


def resumed(count):
    """Members that are frozen ones, resumed."""
    return " ".join(f"(old {number})" for number in range(count))


def sum_of(count):
    """A sum of so many inputs, in two halves that are sums too."""
    return "x" if count < 2 else f"(add {sum_of(count // 2)} {sum_of(count - count // 2)})"


def of_numbers(net):
    """The file of a network of numbers."""
    return f"yampa 1\ninput Int\n{net}\n"


def of_pairs(net):
    """The file of a network of pairs of numbers."""
    return f"yampa 1\ninput (Pair Int Int)\n{net}\n"


def of_both(net):
    """The file of a network of numbers with events, in version 2."""
    return f"yampa 2\ninput (Pair Int (Event Int))\n{net}\n"


def of_events(net):
    """The file of a network of events with numbers."""
    return f"yampa 1\ninput (Event Int)\n{net}\n"


def families(share=1):
    """The text of each family's network, of so large a share of what files may hold: weights up to 5,000, expressions up to 99,000 nodes."""

    def some(count):
        return max(2, round(count * share))

    return {
        "sums nested right": of_numbers(to_the_right(sums(some(250)))),
        "sums nested left": of_numbers(to_the_left(sums(some(250)))),
        "sums balanced": of_numbers(balanced(sums(some(2500)))),
        "cells balanced": of_numbers(balanced(cells(some(2500)))),
        "cells nested right": of_numbers(to_the_right(cells(some(250)))),
        "cells nested left": of_numbers(to_the_left(cells(some(250)))),
        "clocks balanced": of_numbers(balanced(["time"] * some(2500))),
        "identities balanced": of_numbers(balanced(["(arr x)"] * some(2500))),
        "members": of_numbers(f"(parB {members(some(64))})"),
        "members behind a cell": of_numbers(f"(>>> (iPre 3) (parB {members(some(64))}))"),
        "members of members": of_numbers("(parB " + " ".join(["(parB " + " ".join(["integral"] * 64) + ")"] * some(60)) + ")"),
        "loops in loops": of_numbers(repeated(some(28), lambda inner, k: f"(loopPre {k} {inner})", "(arr x)")),
        "loops balanced": of_numbers(balanced(in_turn(some(1500), LOOP))),
        "loops nested right": of_numbers(to_the_right(in_turn(some(250), LOOP))),
        "firsts nested right": of_pairs(to_the_right([f"(first {cell})" for cell in cells(some(250))])),
        "firsts balanced": of_pairs(balanced([f"(first {cell})" for cell in cells(some(1600))])),
        "sums of both balanced": of_numbers(balanced([SUM_OF_BOTH.format(k) for k in range(some(350))])),
        "sums of both nested right": of_numbers(to_the_right([SUM_OF_BOTH.format(k) for k in range(some(200))])),
        "switches in switches": of_numbers(switches(some(120))),
        "frozen in frozen": of_numbers(frozen(some(120))),
        "switches balanced": of_numbers(balanced(in_turn(some(1600), f"(switch {ABOVE.format(9)} (arr (add x (p 0))))"))),
        "swaps balanced": of_pairs(balanced(["(arr (pair (snd x) (add (fst x) 1)))"] * some(2000))),
        "negated 255 times": of_numbers(arr(repeated(some(255), lambda e, k: f"(neg {e})"))),
        "then in the first part": of_numbers(arr(repeated(some(250), lambda e, k: f"(then {e} (add x {k}))"))),
        "then in the second part": of_numbers(arr(repeated(some(250), lambda e, k: f"(then (add x {k}) {e})"))),
        "doubled in the first part": of_numbers(arr(repeated(some(250), lambda e, k: f"(then {e} (add x x))"))),
        "doubled in the second part": of_numbers(arr(repeated(some(250), lambda e, k: f"(then (add x x) {e})"))),
        "doubled stages": of_numbers(to_the_right(["(arr (add (add x x) (add x x)))"] * some(30))),
        "squared stages": of_numbers(to_the_right(["(arr (mul x x))"] * some(20))),
        "terms in the first part": of_numbers(arr(repeated(some(250), lambda e, k: f"(add {e} {k})"))),
        "terms in the second part": of_numbers(arr(repeated(some(250), lambda e, k: f"(add {k} {e})"))),
        "inputs in the first part": of_numbers(arr(repeated(some(250), lambda e, _: f"(add {e} x)"))),
        "events of events": of_events(arr(repeated(some(120), lambda e, k: f"(on {e} (none Int) (event (add (snd x) {k})))"))),
        "events after events": of_events(arr(repeated(some(120), lambda e, k: f"(then {e} (on x (none Int) (event (add (snd x) {k}))))"))),
        "ifs in ifs": of_numbers(arr(repeated(some(250), lambda e, k: f"(if (less x {k}) {e} x)"))),
        "ifs after ifs": of_numbers(arr(repeated(some(60), lambda e, k: f"(then {e} (if (less x {k}) x (add x {k})))"))),
        "ifs before ifs": of_numbers(arr(repeated(some(60), lambda e, k: f"(then (if (less x {k}) x (add x {k})) {e})"))),
        "if stages": of_numbers(to_the_right(["(arr (if (less x 9) x (add x 1)))"] * some(14))),
        "pairs before sums": of_numbers(arr(repeated(some(120), lambda e, k: f"(then (pair x (add x {k})) (then (add (fst x) (snd x)) {e}))"))),
        "restarts balanced": of_numbers(balanced([RESTARTED] * some(600))),
        "members frozen": of_numbers(f"(pSwitch (fst x) (col {members(some(60))}) {SEVENTH} (parB {resumed(some(60))}))"),
        "a collection": of_both(f"(rpSwitchB (col {members(some(30))}) (pair (list Int 0) (list Int x)) (iPre (p 0)))"),
        "a sum balanced": of_numbers(arr(sum_of(some(49000)))),
        "a list": of_numbers(arr(f"(len (list Int {' '.join(['x'] * some(99000))}))")),
        "pairs in a list": of_numbers(arr(f"(len (list Int {' '.join(map(PAIRED.format, range(some(9000))))}))")),
    }
