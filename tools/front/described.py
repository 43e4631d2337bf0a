"""The types of a program as shapes, in the program's words; and as the core has them while a program is translated."""
from __future__ import annotations

from typing import Any

from front.core import Open, fail
from front.scopes import Scopes
from front.shapes import Made, Shape
from front.types import Con, Type, Var, copied, real, result_of

PLAIN = {"Int": "Int", "Bool": "Bool", "()": "Unit"}
ONE_PART = {"Event": "Event", "Maybe": "Maybe", "[]": "List"}


def shape(scopes: Scopes, type_: Type) -> Shape:
    """The shape of a type; one that nothing fixes is the empty tuple."""
    type_ = real(type_)
    if isinstance(type_, Var) or type_.rigid:
        return Shape("Unit")
    if type_.name in PLAIN:
        return Shape(PLAIN[type_.name])
    if type_.name in ONE_PART:
        return Shape(ONE_PART[type_.name], (shape(scopes, type_.args[0]),))
    if type_.name[0] == "(":
        return Shape("tuple", tuple(shape(scopes, part) for part in type_.args))
    if type_.name in ("->", "SF"):
        return fail(f"a value of a sample holds a {'function' if type_.name == '->' else 'network'} here, and only data can be one")
    return data_shape(scopes, type_)


def data_shape(scopes: Scopes, type_: Con) -> Shape:
    data = scopes.data[type_.name]
    found = []
    for one in data.constructors:
        maker = scopes.makers[one.word]
        parts = result_of(copied(maker.scheme.type, dict(zip(maker.scheme.variables, type_.args))))[0]
        names = [name or str(at) for at, name in enumerate(maker.parts, 1)]
        is_named = bool(maker.parts) and None not in maker.parts
        found.append(Made(one.word, tuple((name, shape(scopes, part)) for name, part in zip(names, parts)), is_named))
    sort = "record" if len(found) == 1 else "sum" if any(one.parts for one in found) else "names"
    return Shape(sort, (), data.word, tuple(found))


def inner_type(scopes: Scopes, type_: Type) -> Any:
    """The core's type of a type, as nodes have it."""
    type_ = real(type_)
    if isinstance(type_, Var):
        return Open()
    if type_.name in PLAIN and not type_.rigid:
        return (PLAIN[type_.name],)
    if type_.name in ONE_PART:
        return ("List" if type_.name == "[]" else "Event", inner_type(scopes, type_.args[0]))
    if type_.name[0] == "(":
        return nested([inner_type(scopes, part) for part in type_.args])
    if type_.name in ("->", "SF") or type_.rigid:
        return fail(f"a value of a sample holds a {'function' if type_.name == '->' else 'network'} here, and only data can be one")
    data = scopes.data[type_.name]
    sides = []
    for one in data.constructors:
        scheme = scopes.makers[one.word].scheme
        parts = result_of(copied(scheme.type, dict(zip(scheme.variables, type_.args))))[0]
        sides.append((bool(parts), nested([inner_type(scopes, part) for part in parts])))
    if len(sides) == 1:
        return sides[0][1]
    return nested([("Int",), *[side for has, side in sides if has]])


def nested(parts: list) -> Any:
    if not parts:
        return ("Unit",)
    made = parts[-1]
    for part in reversed(parts[:-1]):
        made = ("Pair", part, made)
    return made
