"""Pairs of networks between which `certify` is to find few steps, or to say soon why it finds none."""
from searching.families import arr, balanced, of_numbers, repeated, to_the_left, to_the_right

# What may be told of networks that aren't one: too many steps are none.
APART = ("(at", "gave up: (at")
TOO_LONG = ("too long: ",)


def ifs(count):
    return arr(repeated(count, lambda e, k: f"(if (less x {k}) {k} {e})"))


def deepest():
    """Switches in collections in switches, so deep that a file just holds them."""

    def routed(net, _):
        return f"(pSwitch (fst x) (col {net}) (arr (if (less 0 (len (snd x))) (event unit) (none Unit))) (arr (list Int 0)))"

    negated = arr(repeated(218, lambda e, _: f"(neg {e})"))
    return routed(repeated(126, lambda net, k: f"(>>> {routed(net, k)} (arr (nth x 0 0)))", negated), 0)


def list_with(last):
    return f"(arr (len (list Int {'x ' * 70_000}{last})))"


def tripled(place, count):
    """A list of inputs, one of which is negated."""
    return f"(arr (list Int {'x ' * place}(neg x){' x' * (count - place - 1)}))"


def networks():
    """What they are, the two networks, and how many steps are enough, or what may be told."""
    doubled = to_the_right([arr("(add x x)")] * 12)
    deep = deepest()
    inputs = f"(arr (list Int{' x' * 1500}))"
    for count in 12, 60:
        beside = ["integral", "(iPre 0)", ifs(count)]
        yield f"regrouped beside {count} ifs", to_the_right(beside), to_the_left(beside), 1
    yield "the same, 250 stages", *[balanced(["time", "integral"] * 125)] * 2, 0
    yield "a deep network behind nothing", deep, f"(>>> (arr x) {deep})", TOO_LONG
    yield "a list of 70,001", list_with("(then x (neg x))"), list_with("(neg x)"), TOO_LONG
    yield "lists of 1,500 inputs, one negated", inputs, tripled(1200, 1500), ("(at 0 1200)", "gave up: (at 0 1200), ")
    yield "doubled 12 times and 16 times as much", doubled, arr("(mul x 16)"), APART
    staged = [arr("(if (less x 9) x (add x 1))")] * 14
    other = [*staged[:3], arr("(if (less x 9) x (add x 7))"), *staged[4:]]
    yield "14 stages of ifs, one of another number", to_the_right(staged), to_the_right(other), APART
    yield from multiplied()
    yield from looped()
    yield "8,000 clocks, and a sum one late", balanced(["time"] * 8_000), "(>>> integral (iPre 0))", ("gave up: (at 0), ",)
    for name, net in hostile().items():
        yield f"{name}, and time", net, "time", APART


def multiplied():
    """Products of sums, and what they are multiplied out."""
    added = "(add x 1)"
    product = f"(mul {added} (sub (neg x) 2))"
    yield "a product of sums, and one sum", arr(product), arr("(add (mul x (neg x)) (add (mul (neg x) 1) (add (mul -2 x) -2)))"), 20
    yield "a cube of a sum, and one sum", arr(f"(mul {added} (mul {added} {added}))"), arr("(add (mul x (mul x x)) (add (mul x (mul x 3)) (add (mul x 3) 1)))"), 90
    yield "a difference, twice as much, and a cell", to_the_right([arr("(sub x 3)"), arr(f"(mul {added} 2)"), "(iPre 0)"]), to_the_right([arr("(add (mul 2 x) -4)"), "(iPre 0)"]), 40
    yield "twice and three times, and five times", arr("(add (mul x 2) (mul 3 x))"), arr("(mul x 5)"), 10
    yield "products before a stage, and behind", to_the_right([arr(f"(mul {added} (add x 2))"), arr("(mul x (add x 3))")]), arr(f"(mul (mul {added} (add x 2)) (add 3 (mul (add x 2) {added})))"), 250
    yield "a factor of 1", arr("(mul x 1)"), arr("x"), 1
    yield "a negated sum", arr(f"(neg {added})"), arr("(add (neg x) -1)"), 2
    terms = [f"(if (less x {k}) {k} x)" for k in range(9)]
    whole = to_the_right(terms, "add")
    yield "a product of 81 terms", arr(f"(mul {whole} {whole})"), arr(to_the_right([f"(mul {e} {f})" for e in terms for f in terms], "add")), APART


def looped():
    """Loops and cells, and what they are as one loop, or in another order."""
    swapped, summed = "(arr (pair (snd x) (fst x)))", "(loopPre 0 (arr (pair (add (snd x) (fst x)) (add (snd x) (fst x)))))"
    both, added = "(arr (pair x x))", "(arr (add (fst x) (snd x)))"
    controller = to_the_right([both, "(first (arr (mul x 3)))", f"(second {summed})", added])
    controlling = "(loopPre 0 (arr (pair (add (mul (fst x) 3) (add (snd x) (fst x))) (add (snd x) (fst x)))))"
    inner = "(loopPre 1 (arr (pair (pair (add (fst (fst x)) (snd x)) (add (snd (fst x)) 1)) (snd (fst x)))))"
    one = "(loopPre (pair 1 0) (arr (pair (add (fst x) (fst (snd x))) (pair (snd (snd x)) (add (snd (snd x)) 1)))))"
    yield "nested loops, and one", f"(loopPre 0 {inner})", one, 120
    yield "a controller, and one loop", controller, controlling, 240
    yield "the same in a switch", *[f"(switch (>>> {net} {arr('(pair x (if (less 9 x) (event x) (none Int)))')}) integral)" for net in (controller, controlling)], 240
    kept, summing = [f"(loopPre 0 {swapped})", "(iPre 0)"], [summed, "(>>> (iPre 0) integral)"]
    yield "two cells, added in either order", *[to_the_right([both, f"(first {f})", f"(second {g})", added]) for f, g in ((kept[1], summed), (summed, kept[0]))], 800
    yield "two that differ", *[to_the_right([both, f"(first {kept[1]})", f"(second {net})", added]) for net in summing], APART
    heard = "(loopPre 1 (arr (pair (add (fst x) (snd x)) (fst x))))"
    yield "a state that isn't heard", "(loopPre 7 (arr (pair (fst x) (snd x))))", arr("x"), 3
    yield "one beside a state that is", "(loopPre (pair 1 7) (arr (pair (add (fst x) (fst (snd x))) (pair (fst x) (snd (snd x))))))", heard, 120
    yield "two to the left of it", "(loopPre (pair (pair 7 3) 1) (arr (pair (add (fst x) (snd (snd x))) (pair (fst (snd x)) (fst x)))))", heard, 180
    yield "a count that isn't heard", "(loopPre 7 (arr (pair (fst x) (add (snd x) 1))))", arr("x"), 120
    for count in 4, 10:
        numbers = range(count)
        stages = [stage for k in numbers for stage in (f"(iPre {k})", arr(f"(add x {k})"))]
        loops = [f"(loopPre {k} (arr (pair (add (snd x) {k}) (fst x))))" for k in numbers]
        yield f"a chain of {count} cells, and of loops", to_the_right(stages), to_the_left(loops), 430 * count


def hostile():
    """Small networks of large values."""
    return {
        "doubled stages": to_the_right([arr("(add (add x x) (add x x))")] * 30),
        "doubled in the first part": arr(repeated(60, lambda e, _: f"(then {e} (add x x))")),
        "doubled in the second part": arr(repeated(100, lambda e, _: f"(then (add x x) {e})")),
        "squared stages": to_the_right([arr("(mul x x)")] * 20),
        "stages of ifs": to_the_right([arr("(if (less x 9) x (add x 1))")] * 14),
        "switches in switches": repeated(40, lambda net, k: f"(switch (arr (pair x (event x))) (>>> (arr (add x (p {39 - k}))) {net}))", arr("x")),
    }


def pair_ends(caller, first, second, enough):
    """What is wrong with what `certify` prints of two networks, and what it found."""
    found, fault = caller.certified(caller.file(of_numbers(first)), caller.file(of_numbers(second)))
    faults = [fault] if fault else []
    steps = isinstance(enough, int)
    if isinstance(found, int) != steps or steps and found > enough or not steps and not str(found).startswith(enough):
        faults.append(f"{enough} steps are enough" if steps else f"wanted: {' or '.join(enough)}")
    return faults, f"{found} steps" if isinstance(found, int) else str(found)
