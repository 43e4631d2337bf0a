"""Loops and cells beside something else, of which `improve` makes one loop, as that costs less."""
from searching.calls import steps_in
from searching.families import arr, of_numbers, of_pairs, to_the_right

SUM = arr("(pair (add (fst x) (snd x)) (add (fst x) (snd x)))")
SMOOTHED = arr("(pair (add (mul (fst x) 3) (snd x)) (add (fst x) (mul (snd x) 2)))")
ADDED = arr("(add (fst x) (snd x))")


def joined():
    """What they are, and the network's text: a loop round one `arr` outputs the same."""
    yield "two loops beside one another, joined", of_numbers(to_the_right([f"(&&& (loopPre 0 {SUM}) (loopPre 1 {SMOOTHED}))", ADDED]))
    yield "a loop of the left part, joined", of_pairs(to_the_right([f"(first (loopPre 0 {SUM}))", ADDED]))
    yield "a difference to the sample before, joined", of_numbers(to_the_right(["(&&& identity (iPre 0))", arr("(sub (fst x) (snd x))")]))


def joined_ends(caller, text):
    """What is wrong with what `improve` makes of a network, and how many steps it takes: it is to be one loop round one `arr`."""
    net = caller.file(text)
    status, output, error = caller.call("improve", net)
    steps = caller.call("improve", net, "--certificate")[1]
    target, count = caller.file(output), steps_in(steps)
    told = caller.call("types", target)[1].splitlines()[1:]
    faults = [] if (status, error) == (0, "") else [f"improve: status {status}, {error!r}"]
    if told != ["weight 2", "height 2"] or output.count("(loopPre ") != 1:
        faults.append(f"wanted: one loop round one `arr`: {told}, {output!r}")
    checked = caller.call("check", net, target, caller.file(steps))
    if checked != (0, f"accepted {count}\n", ""):
        faults.append(f"check: {checked}")
    return faults, f"{count} steps"
