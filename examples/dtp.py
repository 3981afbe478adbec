"""Plans with alternatives, decided by `dtp`. Copy this file beside your own, and write `from dtp import Plan`.

    plan = Plan()
    on, boils, ready = plan.event("kettle on"), plan.event("water boils"), plan.event("tea is ready")
    plan.require(plan.exactly(on, 0))
    plan.require(plan.at_least(boils, 4, on), name="boiling takes four minutes")
    slowly, fast = plan.at_least(ready, 5, boils), [plan.at_least(ready, 3, boils), plan.at_least(ready, 8, on)]
    plan.require(plan.either(slowly, fast))
    print(plan.shortest(ready)[ready])    # 8

Times are whole numbers. `at_least(boils, 4, on)` reads "boils at least 4 after on". Where the last event is left out,
as in `at_least(ready, 15)`, the time counts from a zero that the planner chooses, say two o'clock. Nothing begins there
by itself: an event may come at a negative time, unless `at_least(event, 0)` is required. For Python 3.9 or later.
"""
from __future__ import annotations

import copy
import operator
import re
import subprocess
from typing import Dict, Iterator, List, NamedTuple, NewType, Optional, Sequence, Tuple, Union

Event = NewType("Event", str)
Flag = NewType("Flag", str)
Schedule = Dict[str, Union[int, bool]]
SYMBOL = r"\|[^|]*\||[^\s|()]+"
MODEL = re.compile(rf"\(define-fun ({SYMBOL}) \(\) (?:Int|Bool) (\(- \d+\)|\w+)\)")
ERROR = re.compile(r'\(error "(command (\d+): (.*))"\)\n\Z')
STATUS = {2: "words that it doesn't know", 3: "no input", 4: "no output", 5: "want of memory", 7: "too long a script"}
WORDS = "true false not => and or xor = distinct ite + - * div mod abs <= < >= > let forall exists match as par ! _"


class DtpError(Exception):
    """What dtp refused: `text` says what was wrong, `line` is the line of the script of which it was said, if any."""

    def __init__(self, text: str, line: str = "") -> None:
        super().__init__(f"{text}: {line}" if line else text)
        self.text, self.line = text, line


class OutOfTime(Exception):
    """dtp wasn't done within the timeout, and was stopped. Nothing is known then."""


class NoLeastValue(Exception):
    """The event can come as early as one likes. Most often an `at_least(event, 0)` is missing."""


class Requirement(NamedTuple):
    """What a schedule keeps or doesn't: a formula of the script, the same in words, and a name where it has one."""

    formula: str
    words: str
    name: Optional[str] = None

    def __str__(self) -> str:
        return self.words if self.name is None else self.name


Condition = Union[Requirement, Flag, Sequence[Union[Requirement, Flag]]]  # a list holds where all in it hold


def quoted(name: str) -> str:
    """A name as the script writes it."""
    if "|" in name or "\\" in name or name in WORDS.split():
        raise ValueError(f"a name is no word of the language, and has neither a bar nor a backslash in it: {name!r}")
    return f"|{name}|"


def values(model: str) -> Schedule:
    """What `(get-model)` printed, by name."""
    found = {symbol.strip("|"): re.sub("[() ]", "", text) for symbol, text in MODEL.findall(model)}
    return {name: text == "true" if text in ("true", "false") else int(text) for name, text in found.items()}


def run(program: str, word: str, commands: Sequence[str], certificate: str = "",
        timeout: Optional[float] = None, workers: int = 1) -> str:
    """What `dtp WORD` prints for these commands and a certificate behind them. No model or no core is no exception."""
    words = [program, word] + ([] if word == "check" else ["--workers", str(workers)])
    source = "\n".join([*commands, certificate]).encode("utf-8", "surrogatepass")
    try:
        done = subprocess.run(words, input=source, capture_output=True, timeout=timeout)
    except subprocess.TimeoutExpired:
        raise OutOfTime(f"{' '.join(words)} wasn't done within {timeout} seconds") from None
    printed = done.stdout.decode("utf-8", "surrogatepass")
    error = ERROR.search(printed) if done.returncode == 1 else None
    if error and error[3] not in ("no model", "no core"):
        raise DtpError(error[1], "".join(commands[int(error[2]) - 1 : int(error[2])]))
    if not error and done.returncode not in (0, 6):
        raise DtpError(f"{' '.join(words)}: status {done.returncode}, {STATUS.get(done.returncode, 'cut short')}")
    return printed


class Plan:
    """Events, flags, and what is required of them. Each question has the `timeout`, in seconds, and may raise DtpError
    or OutOfTime. With several workers, which schedule is found of several may differ from run to run."""

    def __init__(self, program: str = "dtp", timeout: Optional[float] = None, workers: int = 1) -> None:
        self.program, self.timeout, self.workers = program, timeout, workers
        self._requirements: List[Requirement] = []
        self._kinds: Dict[str, str] = {}  # each name is an Int, a Bool, or a requirement's

    def event(self, name: str) -> Event:
        """A new time point. It is its name: a schedule is asked by either."""
        return Event(self._take(name, "Int"))

    def flag(self, name: str) -> Flag:
        """A new choice, true or false. It is its name too, and stands where a requirement may."""
        return Flag(self._take(name, "Bool"))

    def at_least(self, event: str, time: int, after: Optional[str] = None) -> Requirement:
        """The event comes at least this time after the other one; at this time or later, where there is none."""
        return self._compared(">=", "at least", event, time, after)

    def at_most(self, event: str, time: int, after: Optional[str] = None) -> Requirement:
        """The event comes at most this time after the other one; at this time or earlier, where there is none."""
        return self._compared("<=", "at most", event, time, after)

    def exactly(self, event: str, time: int, after: Optional[str] = None) -> Requirement:
        """The event comes just this time after the other one; at this time, where there is none."""
        return self._compared("=", "exactly", event, time, after)

    def either(self, *alternatives: Condition) -> Requirement:
        """At least one of these holds."""
        return self._joined("or", alternatives)

    def together(self, *conditions: Condition) -> Requirement:
        """All of these hold."""
        return self._joined("and", conditions)

    def denied(self, condition: Condition) -> Requirement:
        """This doesn't hold; so `either(denied(choice), requirement)` says what a choice brings with it."""
        requirement = self._requirement(condition)
        return Requirement(f"(not {requirement.formula})", f"not {requirement.words}")

    def require(self, *conditions: Condition, name: Optional[str] = None) -> None:
        """All of these must hold: as one requirement of this name, or each as one of its own, told in words."""
        requirements = [self._requirement(condition) for condition in conditions]
        if name is not None:
            requirements = [self.together(*requirements)._replace(name=self._take(name, "requirement"))]
        self._requirements += requirements

    def without(self, *told: str) -> Plan:
        """The same plan as one of its own, without the requirements that `why_not` tells so."""
        unknown = set(told).difference(map(str, self._requirements))
        if unknown:
            raise ValueError(f"no requirement is told so: {', '.join(sorted(unknown))}")
        other = copy.copy(self)
        other._requirements = [requirement for requirement in self._requirements if str(requirement) not in told]
        kept = {requirement.name for requirement in other._requirements}
        other._kinds = {name: kind for name, kind in self._kinds.items() if kind != "requirement" or name in kept}
        return other

    def solve(self) -> Optional[Schedule]:
        """A schedule that keeps all requirements, or None: a whole number for each event, and a bool for each flag."""
        verdict, _, model = self._solved(self._commands(None, "(get-model)")).partition("\n")
        return values(model) if verdict == "sat" else None

    def shortest(self, event: str) -> Optional[Schedule]:
        """A schedule in which the event comes as early as can be; None where there is no schedule."""
        verdict, _, model = self._solved(self._commands(event, "(get-model)")).partition("\n")
        if verdict == "unbounded":
            raise NoLeastValue(f"{event} can come as early as one likes")
        return None if verdict == "unsat" else values(model)

    def why_not(self) -> List[str]:
        """Requirements that clash, by name or in words; none where there is a schedule. They needn't be the fewest."""
        verdict, _, core = self._solved(self._commands(None, "(get-unsat-core)")).partition("\n")
        told = {symbol: str(requirement) for symbol, requirement in self._named()}
        return [told[symbol.strip("|")] for symbol in re.findall(SYMBOL, core)] if verdict == "unsat" else []

    def possible_without(self, *told: str) -> List[str]:
        """Of these requirements, told as `why_not` tells them, those that can each be given up alone so that all others
        can be met, in this order. One run of dtp answers it for all of them, within one timeout."""
        self.without(*told)  # this refuses what isn't told so
        switches = [(quoted(name), str(requirement)) for name, requirement in self._named() if str(requirement) in told]
        kept = [" ".join(switch for switch, words in switches if words != given_up) for given_up in told]
        commands = self._stated(told) + [f"(check-sat-assuming ({assumed}))" for assumed in kept]
        return [given_up for given_up, verdict in zip(told, self._solved(commands).split()) if verdict == "sat"]

    def certificate(self, shortest: Optional[str] = None) -> str:
        """What shows whoever checks it that `solve` answers rightly; or `shortest`, of this event."""
        return run(self.program, "certify", self._commands(shortest), "", self.timeout, self.workers)

    def check(self, certificate: str, shortest: Optional[str] = None) -> bool:
        """Whether `dtp check` accepts the certificate for this plan, whoever made it."""
        return run(self.program, "check", self._commands(shortest), certificate, self.timeout) == "accepted\n"

    def script(self, shortest: Optional[str] = None) -> str:
        """The script that `certificate` and `check` speak of."""
        return "\n".join(self._commands(shortest)) + "\n"

    def _take(self, name: str, kind: str) -> str:
        quoted(name)
        if name in self._kinds:
            raise ValueError(f"{name!r} is a name in this plan already")
        self._kinds[name] = kind
        return name

    def _symbol(self, name: str, kind: str) -> str:
        if self._kinds.get(name) != kind:
            raise ValueError(f"{name!r} isn't {'an event' if kind == 'Int' else 'a flag'} of this plan")
        return quoted(name)

    def _compared(self, relation: str, phrase: str, event: str, time: int, after: Optional[str]) -> Requirement:
        term, time = self._symbol(event, "Int"), operator.index(time)
        if after is not None:
            term = f"(- {term} {self._symbol(after, 'Int')})"
        formula = f"({relation} {term} {time if time >= 0 else f'(- {-time})'})"
        return Requirement(formula, f"{event} {phrase} {time} after {'zero' if after is None else after}")

    def _requirement(self, condition: Condition) -> Requirement:
        if isinstance(condition, str):
            return Requirement(self._symbol(condition, "Bool"), condition)
        return condition if isinstance(condition, Requirement) else self.together(*condition)

    def _joined(self, operation: str, conditions: Sequence[Condition]) -> Requirement:
        parts = [self._requirement(condition) for condition in conditions]
        if not parts:
            raise ValueError("nothing is said to hold")
        formula = f"({operation} {' '.join(part.formula for part in parts)})"
        words = f" {operation} ".join(part.words for part in parts)
        return parts[0] if len(parts) == 1 else Requirement(formula, f"({words})")

    def _named(self) -> Iterator[Tuple[str, Requirement]]:
        """The requirements, each with the name that the script gives it."""
        for place, requirement in enumerate(self._requirements, 1):
            name = f"requirement {place}" if requirement.name is None else requirement.name
            while requirement.name is None and name in self._kinds:
                name += "'"
            yield name, requirement

    def _stated(self, switched: Sequence[str] = ()) -> List[str]:
        """The plan without a question. What is told so needn't be met but where the Bool of its name is assumed."""
        kinds = self._kinds.items()
        commands = [f"(declare-const {quoted(name)} {kind})" for name, kind in kinds if kind != "requirement"]
        for name, requirement in self._named():
            symbol, formula = quoted(name), requirement.formula
            if str(requirement) in switched:
                commands += [f"(declare-const {symbol} Bool)", f"(assert (=> {symbol} {formula}))"]
            else:
                commands.append(f"(assert (! {formula} :named {symbol}))")
        return ["(set-logic QF_IDL)", *commands]

    def _commands(self, shortest: Optional[str] = None, asked: str = "(exit)") -> List[str]:
        question = "(check-sat)" if shortest is None else f"(minimize {self._symbol(shortest, 'Int')})"
        return [*self._stated(), question, asked]

    def _solved(self, commands: Sequence[str]) -> str:
        return run(self.program, "solve", commands, "", self.timeout, self.workers)
