"""What may be meant where one type is wanted and another is found."""
from front.types import TRAIL, Clash, Con, Type, Var, real, result_of, unify


def fits(one: Type, other: Type) -> bool:
    """Whether two types have the same outermost word, or one isn't known."""
    one, other = real(one), real(other)
    return isinstance(one, Var) or isinstance(other, Var) or one.name == other.name


def hint(wanted: Type, found: Type) -> str:
    """The end of a sentence that says how the one becomes the other, or nothing."""
    wanted, found = real(wanted), real(found)
    if isinstance(wanted, Var) or isinstance(found, Var):
        return ""
    if wanted.name == "SF" and found.name == "->":
        return "; arr makes a network of a function" if len(result_of(found)[0]) == 1 else ""
    if found.name == "->" and wanted.name != "->":
        params, result = result_of(found)
        return f"; {'a part is' if len(params) == 1 else f'{len(params)} parts are'} missing behind it" if fits(wanted, result) else ""
    if found.name == "SF" and wanted.name != "SF":
        return "; what a network outputs is bound by <- in a do"
    if wanted.name == "Event" and fits(wanted.args[0], found):
        return "; Event before it makes an event of it"
    if found.name in ("Event", "Maybe") and fits(found.args[0], wanted):
        return "; event gives its value, or another where there is none" if found.name == "Event" else "; maybe gives its value, or another"
    if wanted.name == "Bool" and found.name == "Int":
        return "; compare it with a number"
    if wanted.name == "Int" and found.name == "Bool":
        return "; if makes a number of it"
    if wanted.name == "[]" and fits(wanted.args[0], found):
        return "; brackets around it make a list of it"
    return ""


def same(one: Type, other: Type) -> bool:
    """Makes two types the same, if they can be; else both stay as they are."""
    try:
        unify(one, other)
    except Clash:
        for var in TRAIL:
            var.to = None
        return False
    finally:
        TRAIL.clear()
    return True


def is_con(type_: Type, name: str) -> bool:
    type_ = real(type_)
    return isinstance(type_, Con) and type_.name == name
