"""What printed C does, by the rules of crates/c_meaning: what C99 leaves undefined, or to a compiler, has no result.

Objects are a scalar that is a number, a truth or not set (None), and lists of members or elements. A place is a list and a position in it.
A pointer is a place with its path: the local and the members on the way, where all elements of an array count as one. Expressions and
commands become functions of a frame, which is the list of a call's locals.
"""
from compiling.reading import Unread
from compiling.roots import is_steady, written

RANGES = {"u8": (0, 2**8 - 1), "u32": (0, 2**32 - 1), "i64": (-(2**63), 2**63 - 1), "u64": (0, 2**64 - 1), "int": (-(2**31), 2**31 - 1)}
# What a number of one type may become without a cast, since each number of the one is one of the other.
WIDER = {("u8", "u32"), ("u8", "i64"), ("u8", "u64"), ("u32", "u64"), ("u32", "i64")}
MOST_ROUNDS = 1_000_000


class Undefined(Exception):
    """What has no result."""


def in_range(number, type_):
    least, most = RANGES[type_]
    if not least <= number <= most:
        raise Undefined(f"{number} is no {type_}")
    return number


def arithmetic(sign, type_):
    """A sum, difference, product or remainder of two numbers of a type: modulo 2^64 of u64; else the number itself, if the type has it. Those
    of u8 would be of int."""
    if type_ == "u8":
        raise Unread(f"{sign} of u8")
    work = {"+": lambda a, b: a + b, "-": lambda a, b: a - b, "*": lambda a, b: a * b, "%": remainder}[sign]
    if type_ == "u64":
        return lambda a, b: work(a, b) % 2**64
    return lambda a, b: in_range(work(a, b), type_)


def remainder(a, b):
    if a < 0 or b < 1:
        raise Undefined(f"{a} % {b}")
    return a % b


COMPARED = {"<": lambda a, b: a < b, "<=": lambda a, b: a <= b, "==": lambda a, b: a == b}


def common(one, other):
    """The type in which two numbers meet."""
    if one == other or other == "int" and one in RANGES:
        return one
    if one == "int" and other in RANGES or (one, other) in WIDER:
        return other
    if (other, one) in WIDER:
        return one
    raise Unread(f"{one} beside {other}")


class Meaning:
    """A program whose functions can be called."""

    def __init__(self, program):
        self.program, self.made = program, {}
        for name, function in program.functions.items():
            self.made[name] = Body(self, function)

    def call(self, name, given):
        return self.made[name](given)

    def fresh(self, type_, scalar=None):
        """An object of a type, of which each scalar is not set, or this."""
        if isinstance(type_, str):
            return bool(scalar) if type_ == "bool" and scalar is not None else scalar
        if type_[0] == "array":
            return [self.fresh(type_[1], scalar) for _ in range(type_[2])]
        if type_[0] == "struct":
            return [self.fresh(one, scalar) for one in self.program.structs[type_[1]].values()]
        return None

    def member(self, type_, name):
        """The place of a struct's member, and its type."""
        if type_[0] != "struct" or name not in self.program.structs[type_[1]]:
            raise Unread(f"{name} of {type_}")
        members = self.program.structs[type_[1]]
        return list(members).index(name), members[name]


def copied(value):
    return [copied(one) if type(one) is list else one for one in value] if type(value) is list else value  # pylint: disable=unidiomatic-typecheck


def is_set(value):
    if value is None:
        raise Undefined("a scalar is read that is not set")
    return value


def apart(one, other):
    """Whether what two paths lead to has nothing in common."""
    length = min(len(one), len(other))
    return one[:length] != other[:length]


class Body:
    """A function: its locals get their numbers, parameters first, as its body is gone through."""

    def __init__(self, meaning, function):
        self.meaning, self.function, self.types, self.scopes = meaning, function, [], [{}]
        for type_, name in function.parameters:
            self.local(type_, name)
        self.run = self.command(function.body)
        self.is_steady = is_steady(function.body, meaning.program.functions)

    def __call__(self, given):
        if not self.is_steady:
            raise Undefined("what a pointer to const leads to is written")
        frame = [copied(one) for one in given] + [None] * (len(self.types) - len(given))
        outcome = self.run(frame)
        if outcome is None:
            if self.function.result != "void":
                raise Undefined("a function answers nothing")
            return None
        return outcome[0]

    # ---- locals

    def local(self, type_, name):
        if any(name in scope for scope in self.scopes):
            raise Unread(f"{name} is declared twice")
        self.scopes[-1][name] = len(self.types)
        self.types.append(type_)
        return len(self.types) - 1

    def number_of(self, name):
        for scope in reversed(self.scopes):
            if name in scope:
                return scope[name]
        raise Unread(f"the name {name}")

    # ---- places: their type, and a function that answers list, position and path

    def place(self, tree):
        ways = {"name": self.name_place, "member": self.member_place, "at": self.element_place, "deref": self.deref_place}
        if tree[0] not in ways:
            raise Unread(f"the place {tree[0]}")
        return ways[tree[0]](tree)

    def name_place(self, tree):
        number = self.number_of(tree[1])
        return self.types[number], lambda frame: (frame, number, (id(frame), number))

    def member_place(self, tree):
        type_, where = self.place(tree[1])
        number, of = self.meaning.member(type_, tree[2])

        def found(frame):
            within, at, path = where(frame)
            return within[at], number, (*path, number)

        return of, found

    def deref_place(self, tree):
        type_, pointer = self.value(tree[1])
        if type_[0] != "pointer":
            raise Unread(f"* of {type_}")
        return type_[1], pointer

    def element_place(self, tree):
        """An element of an array, or of what a pointer to one leads to, at an index that it has."""
        type_, where = self.pointer_to(tree[1])
        index_type, index = self.value(tree[2])
        if index_type not in RANGES:
            raise Unread(f"an index of {index_type}")

        def found(frame):
            within, at, path = where(frame)
            number = at + index(frame)
            if not 0 <= number < len(within):
                raise Undefined(f"the element {number} of {len(within)}")
            return within, number, path

        return type_, found

    def pointer_to(self, tree):
        """What a pointer leads to; of an array its first element."""
        if tree[0] in ("name", "member", "at", "deref"):
            type_, where = self.place(tree)
            if type_[0] == "array":
                return type_[1], lambda frame: first_of(where(frame))
        type_, pointer = self.value(tree)
        if type_[0] != "pointer":
            raise Unread(f"an element of {type_}")
        return type_[1], pointer

    # ---- values: their type, and a function that answers them

    def value(self, tree):
        if tree[0] in ("name", "member", "at", "deref"):
            type_, where = self.place(tree)
            if type_[0] == "array":
                return ("pointer", type_[1], False), lambda frame: first_of(where(frame))
            return type_, lambda frame: is_set(content(where(frame)))
        return getattr(self, f"{tree[0]}_value")(tree)

    def number_value(self, tree):
        number = in_range(tree[1], tree[2])
        return tree[2], lambda frame: number

    def truth_value(self, tree):
        return "bool", lambda frame: tree[1]

    def address_value(self, tree):
        type_, where = self.place(tree[1])
        return ("pointer", type_, False), where

    def not_value(self, tree):
        value = self.truth(tree[1])
        return "bool", lambda frame: not value(frame)

    def cast_value(self, tree):
        """To u64 modulo 2^64; else the number itself."""
        type_, value = self.value(tree[2])
        if type_ not in RANGES or tree[1] not in RANGES:
            raise Unread(f"a cast from {type_} to {tree[1]}")
        if tree[1] == "u64":
            return "u64", lambda frame: value(frame) % 2**64
        return tree[1], lambda frame: in_range(value(frame), tree[1])

    def truth(self, tree):
        return self.value_of("bool", tree)

    def binary_value(self, tree):
        _, sign, left, right = tree
        if sign in ("&&", "||"):
            one, other = self.truth(left), self.truth(right)
            return "bool", (lambda frame: one(frame) and other(frame)) if sign == "&&" else (lambda frame: one(frame) or other(frame))
        (left_type, one), (right_type, other) = self.value(left), self.value(right)
        if sign == "==" and left_type == right_type == "bool":
            type_ = "bool"
        else:
            type_ = common(left_type, right_type)
            one, other = converted(type_, left_type, one), converted(type_, right_type, other)
        work = COMPARED.get(sign) or arithmetic(sign, type_)
        return "bool" if sign in COMPARED else type_, lambda frame: work(one(frame), other(frame))

    def choice_value(self, tree):
        test, (one_type, one), (other_type, other) = self.truth(tree[1]), self.value(tree[2]), self.value(tree[3])
        if one_type != other_type and "int" not in (one_type, other_type):
            raise Unread(f"?: of {one_type} and {other_type}")
        type_ = one_type if one_type == other_type else common(one_type, other_type)
        one, other = converted(type_, one_type, one), converted(type_, other_type, other)
        return type_, lambda frame: one(frame) if test(frame) else other(frame)

    def call_value(self, tree):
        """A call of an earlier function. What is written through its pointer has nothing in common with what other pointers lead to."""
        if tree[1] not in self.meaning.made:
            raise Unread(f"a call of {tree[1]}, which doesn't stand above")
        called = self.meaning.made[tree[1]]
        types = [type_ for type_, _ in called.function.parameters]
        if len(types) != len(tree[2]):
            raise Unread(f"a call of {tree[1]} with {len(tree[2])} arguments")
        given = [self.value_of(type_, one) for type_, one in zip(types, tree[2])]
        pointers = [number for number, type_ in enumerate(types) if type_[0] == "pointer"]
        pairs = [(j, k) for j in pointers for k in pointers if j < k and not (types[j][2] and types[k][2])]

        def answer(frame):
            values = [one(frame) for one in given]
            for j, k in pairs:
                if not apart(values[j][2], values[k][2]):
                    raise Undefined(f"{tree[1]} is called with pointers to the same")
            return called(values)

        return called.function.result, answer

    def value_of(self, type_, tree):
        """A value where this type is wanted."""
        if tree[0] == "braces":
            return self.braced(type_, tree[1])
        own, value = self.value(tree)
        return converted(type_, own, value)

    def compound_value(self, tree):
        return tree[1], self.braced(tree[1], tree[2])

    def braced(self, type_, trees):
        """An object of a struct or an array by its first parts; the others are zero."""
        types = list(self.meaning.program.structs[type_[1]].values()) if type_[0] == "struct" else [type_[1]] * type_[2]
        is_zero = trees == [("number", 0, "int")]
        parts = [] if is_zero else [self.value_of(one, tree) for one, tree in zip(types, trees)]
        if len(trees) > len(types):
            raise Unread(f"{len(trees)} parts of {type_}")
        rest = types[len(parts) :]
        return lambda frame: [copied(part(frame)) for part in parts] + [self.meaning.fresh(one, 0) for one in rest]

    # ---- commands: functions that answer None to go on, or what is returned in a list

    def command(self, tree):
        return getattr(self, f"{tree[0]}_command")(*tree[1:])

    def block_command(self, trees):
        self.scopes.append({})
        commands = [self.command(tree) for tree in trees]
        self.scopes.pop()
        return in_order(commands)

    def declare_command(self, type_, name, tree):
        value = None if tree is None else self.value_of(type_, tree)
        number = self.local(type_, name)

        def work(frame):
            frame[number] = self.meaning.fresh(type_) if value is None else copied(value(frame))

        return work

    def assign_command(self, place, tree):
        type_, where = self.place(place)
        value = self.value_of(type_, tree)

        def work(frame):
            made = copied(value(frame))
            within, at, _ = where(frame)
            within[at] = made

        return work

    def call_command(self, name, given):
        _, value = self.call_value(("call", name, given))

        def work(frame):
            value(frame)

        return work

    def if_command(self, test, then, other):
        holds, one, two = self.truth(test), self.command(then), self.command(other)
        return lambda frame: one(frame) if holds(frame) else two(frame)

    def for_command(self, first, test, after, body):
        if first[2] in written(body, self.meaning.program.functions):
            raise Unread(f"the counter {first[2]} is written")
        self.scopes.append({})
        begin, holds, then, work = self.command(first), self.truth(test), self.command(after), self.command(body)
        self.scopes.pop()
        return in_order([begin, repeated(holds, work, then)])

    def return_command(self, tree):
        if tree is None:
            return lambda frame: [None]
        value = self.value_of(self.function.result, tree)
        return lambda frame: [value(frame)]


def content(place):
    within, at, _ = place
    return within[at]


def first_of(place):
    within, at, path = place
    return within[at], 0, path


def converted(type_, own, value):
    """A value of one type where another is wanted: without a cast only where no number is changed."""
    if own == "int" and type_ in RANGES:
        return lambda frame: in_range(value(frame), type_)
    if own == type_ or (own, type_) in WIDER or own[0] == type_[0] == "pointer" and own[1] == type_[1] and own[2] <= type_[2]:
        return value
    raise Unread(f"{own} where {type_} is wanted")


def in_order(commands):
    def work(frame):
        for command in commands:
            outcome = command(frame)
            if outcome is not None:
                return outcome
        return None

    return work


def repeated(holds, body, then):
    def work(frame):
        for _ in range(MOST_ROUNDS):
            if not holds(frame):
                return None
            outcome = body(frame)
            if outcome is not None:
                return outcome
            then(frame)
        raise Undefined("a loop without an end")

    return work
