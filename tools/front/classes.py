"""Which types are of a class: what `==`, `<` and `fromEnum` want of the types of their parts."""
from __future__ import annotations

from dataclasses import dataclass

from front.faults import Fault, Place
from front.scopes import Scopes
from front.types import Con, Scheme, Type, Var, copied, real, shown, variables_in

# Classes that bring others.
BRINGS = {"Ord": ("Eq",)}


@dataclass
class Want:
    """That a type is of a class, for a word at a place."""

    kind: str
    type: Type
    place: Place
    word: str


class Classes:
    """What is wanted, and not decided yet since the type isn't known."""

    def __init__(self, scopes: Scopes):
        self.scopes = scopes
        self.left: list[Want] = []
        self.given: dict[int, set[str]] = {}
        self.faults: list[Fault] = []

    def instance(self, scheme: Scheme, level: int, place: Place, word: str) -> Type:
        """The type of a word where it is used; what its variables must be is wanted of theirs."""
        if not scheme.variables:
            return scheme.type
        fresh = {var: Var(level) for var in scheme.variables}
        self.left += [Want(kind, fresh[var], place, word) for kind, var in scheme.wants]
        return copied(scheme.type, fresh)

    def generalised(self, type_: Type, level: int) -> Scheme:
        """The type for all that is deeper than a level."""
        variables = variables_in(type_, level)
        self.settle()
        wants = []
        for want in list(self.left):
            var = real(want.type)
            if var in variables:
                self.left.remove(want)
                if (want.kind, var) not in wants:
                    wants.append((want.kind, var))
        return Scheme(variables, type_, wants)  # type: ignore[arg-type]

    def settle(self) -> None:
        """Decides what can be decided."""
        waiting = []
        for want in self.left:
            if isinstance(real(want.type), Var):
                waiting.append(want)
                continue
            try:
                waiting += self.decided(want)
            except Fault as fault:
                self.faults.append(fault)
        self.left = waiting

    def decided(self, want: Want) -> list[Want]:
        """What is wanted still where the type is of the class."""
        type_ = real(want.type)
        if isinstance(type_, Var):
            return [want]
        if type_.rigid:
            if want.kind not in self.given.get(type_.rigid, set()):
                raise Fault(want.place, f"{want.word} wants {type_.name} to be of {want.kind}: write {want.kind} {type_.name} => before its type")
            return []
        if type_.name in ("->", "SF"):
            raise Fault(want.place, f"{want.word} cannot take {shown(type_)}: {'functions' if type_.name == '->' else 'networks'} are not {want.kind}")
        data = self.scopes.data.get(type_.name)
        if data is not None and want.kind not in data.derived:
            raise Fault(want.place, f"{want.word} wants {data.word} to be of {want.kind}: write deriving ({want.kind}) behind its data")
        if want.kind in ("Enum", "Bounded") and (type_.args or type_.name == "()"):
            raise Fault(want.place, f"{want.word} is of a number, a truth or a name, and this is {shown(type_)}")
        found = []
        for part in type_.args:
            found += self.decided(Want(want.kind, part, want.place, want.word))
        return found

    def promise(self, scheme: Scheme, rigid: dict[Var, Con]) -> None:
        """What the context of a signature gives."""
        for kind, var in scheme.wants:
            if var in rigid:
                self.given.setdefault(rigid[var].rigid, set()).update((kind, *BRINGS.get(kind, ())))
