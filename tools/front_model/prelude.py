"""The names that every file has: of Haskell, of Yampa, and `nth`, `at` of Yampa.Whole."""
from __future__ import annotations

from collections.abc import Callable
from functools import reduce
from typing import Any

from front_model import networks as sf
from front_model.values import EVENT, JUST, NEVER, NOTHING, Later, Made, Value, call, curried, equal, event, is_there, less, now, wrapped

# ---- numbers


def divided(a: int, b: int) -> int:
    return wrapped(a // b) if b else 0


def left_over(a: int, b: int) -> int:
    return a % b if b else a


def quotient(a: int, b: int) -> int:
    return wrapped(abs(a) // abs(b) * (1 if (a < 0) == (b < 0) else -1)) if b else 0


def remainder(a: int, b: int) -> int:
    return wrapped(a - b * quotient(a, b))


def shifted_left(a: int, n: int) -> int:
    return wrapped(a << n) if 0 <= n < 64 else 0


def shifted_right(a: int, n: int) -> int:
    return a >> (n if 0 <= n < 64 else 63)


def sign(a: int) -> int:
    return (a > 0) - (a < 0)


NUMBERS: dict[str, Callable[..., Any]] = {
    "+": lambda a, b: wrapped(a + b),
    "-": lambda a, b: wrapped(a - b),
    "*": lambda a, b: wrapped(a * b),
    "^": lambda a, b: wrapped(pow(a, b, 2**64)),
    "div": divided,
    "mod": left_over,
    "quot": quotient,
    "rem": remainder,
    ".&.": lambda a, b: a & b,
    ".|.": lambda a, b: a | b,
    "xor": lambda a, b: a ^ b,
    "shiftL": shifted_left,
    "shiftR": shifted_right,
    "fromIntegral": lambda a: a,
    "negate": lambda a: wrapped(-a),
    "abs": lambda a: wrapped(abs(a)),
    "signum": sign,
    "subtract": lambda a, b: wrapped(b - a),
    "not": lambda a: not a,
}

# ---- what takes its parts as they are


def greatest(values: Value) -> Value:
    return reduce(lambda a, b: a if less(b, a) else b, now(values))


def least(values: Value) -> Value:
    return reduce(lambda a, b: b if less(b, a) else a, now(values))


def from_left(function: Value, z: Value, values: Value) -> Value:
    for part in now(values):
        z = Later(lambda before=z, part=part: call(function, before, part))
    return z


def scanned(function: Value, z: Value, values: Value) -> list:
    found = [z]
    for part in now(values):
        found.append(Later(lambda before=found[-1], part=part: call(function, before, part)))
    return found


def from_right(function: Value, z: Value, values: Value) -> Value:
    for part in reversed(now(values)):
        z = Later(lambda after=z, part=part: call(function, part, after))
    return z


def mapped(function: Value, of: Value) -> Value:
    """A function inside of a list, of an event, or of what may be there."""
    there = now(of)
    if isinstance(there, list):
        return [Later(lambda part=part: call(function, part)) for part in there]
    return Made(there.by, [Later(lambda part=part: call(function, part)) for part in there.parts])


def joined_with(function: Value, *lists: Value) -> list:
    return [Later(lambda parts=parts: call(function, *parts)) for parts in zip(*map(now, lists))]


def taken_while(function: Value, values: Value) -> list:
    found = []
    for part in now(values):
        if not call(function, part):
            break
        found.append(part)
    return found


def looked_up(wanted: Value, pairs: Value) -> Made:
    return next((Made(JUST, [now(pair)[1]]) for pair in now(pairs) if equal(now(pair)[0], wanted)), Made(NOTHING))


def those_there(values: Value) -> list:
    return [now(part).parts[0] for part in now(values) if now(part).by == JUST]


def element(values: Value, place: Value, other: Value) -> Value:
    return now(values)[now(place)] if 0 <= now(place) < len(now(values)) else other


def those_at(places: Value, values: Value) -> list:
    return [now(values)[now(place)] for place in now(places) if 0 <= now(place) < len(now(values))]


def next_by(step: int) -> Callable[[Value], Value]:
    """The next constructor or number, or the one before; the last one stays."""

    def found(value: Value) -> Value:
        there = now(value)
        if isinstance(there, Made):
            beside = there.by.beside
            return Made(beside[min(max(there.by.number + step, 0), len(beside) - 1)])
        return step > 0 if isinstance(there, bool) else wrapped(there + step)

    return found


def merged(function: Value, a: Value, b: Value) -> Value:
    if is_there(a) and is_there(b):
        return event(Later(lambda: call(function, now(a).parts[0], now(b).parts[0])))
    return a if is_there(a) else b


def on_event(other: Value, function: Value, happening: Value) -> Value:
    return call(function, now(happening).parts[0]) if is_there(happening) else other


def on_maybe(other: Value, function: Value, may_be: Value) -> Value:
    return call(function, now(may_be).parts[0]) if is_just(may_be) else other


def is_just(may_be: Value) -> bool:
    return bool(now(may_be).by == JUST)


def kept_if_just(may_be: Value) -> Value:
    """The event that happens where something is there."""
    return event(now(may_be).parts[0]) if is_just(may_be) else NEVER


def number_of(value: Value) -> int:
    there = now(value)
    return there.by.number if isinstance(there, Made) else int(there)


def all_of(values: Value) -> bool:
    return all(now(value) for value in now(values))


def any_of(values: Value) -> bool:
    return any(now(value) for value in now(values))


LISTS: dict[str, tuple[int, Callable[..., Value]]] = {
    "map": (2, mapped),
    "filter": (2, lambda f, xs: [x for x in now(xs) if call(f, x)]),
    "zip": (2, lambda xs, ys: list(zip(now(xs), now(ys)))),
    "zip3": (3, lambda xs, ys, zs: list(zip(now(xs), now(ys), now(zs)))),
    "zipWith": (3, joined_with),
    "zipWith3": (4, joined_with),
    "unzip": (1, lambda xs: ([Later(lambda x=x: now(x)[0]) for x in now(xs)], [Later(lambda x=x: now(x)[1]) for x in now(xs)])),
    "foldr": (3, from_right),
    "foldl": (3, from_left),
    "foldl'": (3, from_left),
    "scanl": (3, scanned),
    "foldr1": (2, lambda f, xs: from_right(f, now(xs)[-1], now(xs)[:-1])),
    "foldl1": (2, lambda f, xs: from_left(f, now(xs)[0], now(xs)[1:])),
    "sum": (1, lambda xs: wrapped(sum(map(now, now(xs))))),
    "product": (1, lambda xs: reduce(lambda a, b: wrapped(a * now(b)), now(xs), 1)),
    "maximum": (1, greatest),
    "minimum": (1, least),
    "and": (1, all_of),
    "or": (1, any_of),
    "any": (2, lambda f, xs: any(call(f, x) for x in now(xs))),
    "all": (2, lambda f, xs: all(call(f, x) for x in now(xs))),
    "elem": (2, lambda x, xs: any(equal(x, other) for other in now(xs))),
    "notElem": (2, lambda x, xs: not any(equal(x, other) for other in now(xs))),
    "concat": (1, lambda xss: [x for xs in now(xss) for x in now(xs)]),
    "concatMap": (2, lambda f, xs: [y for x in now(xs) for y in call(f, x)]),
    "replicate": (2, lambda n, x: [x] * max(0, now(n))),
    "take": (2, lambda n, xs: now(xs)[: max(0, now(n))]),
    "drop": (2, lambda n, xs: now(xs)[max(0, now(n)) :]),
    "takeWhile": (2, taken_while),
    "dropWhile": (2, lambda function, xs: now(xs)[len(taken_while(function, xs)) :]),
    "splitAt": (2, lambda count, xs: (now(xs)[: max(now(count), 0)], now(xs)[max(now(count), 0) :])),
    "lookup": (2, looked_up),
    "catMaybes": (1, those_there),
    "mapMaybe": (2, lambda function, xs: those_there([call(function, part) for part in now(xs)])),
    "reverse": (1, lambda xs: now(xs)[::-1]),
    "++": (2, lambda xs, ys: [*now(xs), *now(ys)]),
    "!!": (2, lambda xs, k: now(xs)[now(k)]),
    "length": (1, lambda xs: len(now(xs))),
    "null": (1, lambda xs: not now(xs)),
    "head": (1, lambda xs: now(xs)[0]),
    "last": (1, lambda xs: now(xs)[-1]),
    "tail": (1, lambda xs: now(xs)[1:]),
    "init": (1, lambda xs: now(xs)[:-1]),
    "nth": (3, element),
    "at": (2, those_at),
}

FUNCTIONS: dict[str, tuple[int, Callable[..., Value]]] = {
    "==": (2, equal),
    "/=": (2, lambda a, b: not equal(a, b)),
    "<": (2, less),
    ">": (2, lambda a, b: less(b, a)),
    "<=": (2, lambda a, b: not less(b, a)),
    ">=": (2, lambda a, b: not less(a, b)),
    "max": (2, lambda a, b: a if less(b, a) else b),
    "min": (2, lambda a, b: b if less(b, a) else a),
    "&&": (2, lambda a, b: now(a) and now(b)),
    "||": (2, lambda a, b: now(a) or now(b)),
    "fst": (1, lambda pair: now(pair)[0]),
    "snd": (1, lambda pair: now(pair)[1]),
    "id": (1, lambda x: x),
    "const": (2, lambda x, _: x),
    "flip": (3, lambda f, x, y: call(f, y, x)),
    "curry": (3, lambda f, x, y: call(f, (x, y))),
    "uncurry": (2, lambda f, pair: call(f, now(pair)[0], now(pair)[1])),
    ".": (3, lambda f, g, x: call(f, Later(lambda: call(g, x)))),
    "$": (2, call),
    "$!": (2, call),
    "seq": (2, lambda _, x: x),
    "fromEnum": (1, number_of),
    "succ": (1, next_by(1)),
    "pred": (1, next_by(-1)),
    "fmap": (2, mapped),
    "<$>": (2, mapped),
    "<$": (2, lambda x, of: mapped(lambda _: x, of)),
    "$>": (2, lambda of, x: mapped(lambda _: x, of)),
    "maybe": (3, on_maybe),
    "fromMaybe": (2, lambda other, may_be: now(may_be).parts[0] if is_just(may_be) else other),
    "isJust": (1, is_just),
    "isNothing": (1, lambda may_be: not is_just(may_be)),
    "event": (3, on_event),
    "isEvent": (1, is_there),
    "isNoEvent": (1, lambda happening: not is_there(happening)),
    "tag": (2, lambda happening, x: mapped(lambda _: x, happening)),
    "tagWith": (2, lambda x, happening: mapped(lambda _: x, happening)),
    "attach": (2, lambda happening, x: mapped(lambda v: (v, x), happening)),
    "gate": (2, lambda happening, holds: happening if now(holds) else NEVER),
    "lMerge": (2, lambda a, b: a if is_there(a) else b),
    "rMerge": (2, lambda a, b: b if is_there(b) else a),
    "mergeBy": (3, merged),
    "filterE": (2, lambda f, a: a if is_there(a) and call(f, now(a).parts[0]) else NEVER),
    "mapFilterE": (2, lambda f, a: kept_if_just(call(f, now(a).parts[0])) if is_there(a) else NEVER),
    "joinE": (2, lambda a, b: event((now(a).parts[0], now(b).parts[0])) if is_there(a) and is_there(b) else NEVER),
    "splitE": (1, lambda a: (mapped(lambda pair: now(pair)[0], a), mapped(lambda pair: now(pair)[1], a))),
    "maybeToEvent": (1, kept_if_just),
}

NETWORKS: dict[str, tuple[int, Callable[..., Value]]] = {
    "arr": (1, sf.arr),
    "constant": (1, sf.constant),
    ">>>": (2, sf.behind),
    "<<<": (2, lambda g, f: sf.behind(f, g)),
    ">>^": (2, lambda f, h: sf.behind(f, sf.arr(h))),
    "^>>": (2, lambda h, f: sf.behind(sf.arr(h), f)),
    "***": (2, sf.beside),
    "&&&": (2, sf.both),
    "first": (1, lambda f: sf.beside(f, sf.identity)),
    "second": (1, lambda f: sf.beside(sf.identity, f)),
    "loopPre": (2, sf.loop_pre),
    "iPre": (1, sf.i_pre),
    "delay": (2, sf.delay),
    "hold": (1, sf.hold),
    "dHold": (1, lambda c: sf.behind(sf.hold(c), sf.i_pre(c))),
    "trackAndHold": (1, lambda c: sf.behind(sf.arr(kept_if_just), sf.hold(c))),
    "accumBy": (2, sf.accum_by),
    "accumHoldBy": (2, sf.accum_hold_by),
    "accum": (1, sf.accum),
    "accumHold": (1, sf.accum_hold),
    "now": (1, lambda c: sf.after(0, c)),
    "after": (2, sf.after),
    "repeatedly": (2, sf.repeatedly),
    "iEdge": (1, sf.i_edge),
    "edgeTag": (1, lambda c: sf.behind(sf.i_edge(True), sf.arr(lambda happening: mapped(lambda _: c, happening)))),
    "-->": (2, sf.first_output),
    ">--": (2, sf.first_input),
    "switch": (2, sf.switch),
    "dSwitch": (2, sf.d_switch),
    "rSwitch": (1, sf.r_switch),
    "drSwitch": (1, sf.dr_switch),
    "kSwitch": (3, sf.k_switch),
    "parB": (1, sf.members),
    "pSwitch": (4, sf.p_switch),
    "pSwitchB": (3, sf.p_switch_b),
    "rpSwitchB": (1, sf.rp_switch_b),
}

VALUES: dict[str, Value] = {
    "otherwise": True,
    "identity": sf.identity,
    "returnA": sf.identity,
    "never": sf.constant(NEVER),
    "edge": sf.i_edge(True),
    "notYet": sf.first_output(NEVER, sf.identity),
    "once": sf.once(),
    "time": sf.time(),
    "localTime": sf.time(),
    "integral": sf.integral(),
}


def strict(function: Callable[..., Value]) -> Callable[..., Value]:
    return lambda *parts: function(*map(now, parts))


def names() -> dict[str, Value]:
    """Each name's value."""
    found = {word: curried(function.__code__.co_argcount, strict(function)) for word, function in NUMBERS.items()}
    found |= {word: curried(count, function) for part in (LISTS, FUNCTIONS, NETWORKS) for word, (count, function) in part.items()}
    return found | VALUES


MADE = {by.word: by for by in (NEVER.by, EVENT, NOTHING, JUST)}
