#!/usr/bin/env python3
"""Checks a script with its certificate behind it, without any part of dtp: examples/check.py [FILE]
It prints `accepted` (status 0) or `refused: ..` with the first reason (status 6). It was written from docs/LANGUAGE.md
and docs/CERTIFICATE.md alone, whose sections are named below. Python 3.9 or later, standard library only."""
import re
import sys
from collections import Counter, namedtuple
from contextlib import contextmanager
from functools import lru_cache, partial, reduce
from itertools import accumulate, chain, combinations, islice, product

ACCEPTED, REFUSED, TOO_LONG = 0, 6, 7   # the status
MOST_BYTES, MOST_NAMES, MOST_LEVELS, MOST_NODES, MOST_CASES = 2**30, 65536, 65536, 2**20, 4096   # LANGUAGE, "Limits"
GREATEST_CONSTANT, GREATEST_COEFFICIENT, GREATEST_DIFFERENCE, GREATEST_OBJECTIVE = 2**62, 2**20, 2**60, 2**60
GREATEST_NUMBER, GREATEST_VALUE = 2**61, 2**90   # CERTIFICATE, the row "number"

class Fault(Exception):
    """What is wrong; its text is the kind, behind the places that are known so far."""

def require(condition, kind):
    if not condition: raise Fault(kind)

@contextmanager
def placed(place):
    """A fault in this block has the place before its kind."""
    try:
        yield
    except Fault as fault:
        raise Fault(f"{place}: {fault}") from None

def reached(start, following, known=()):
    """The start and what follows it, near and far, but for what is known."""
    found, waiting = set(), list(start)
    while waiting:
        item = waiting.pop()
        if item not in found and item not in known:
            found.add(item)
            waiting.extend(following(item))
    return found

# ---- The text: LANGUAGE, "Text" ----
# A numeral is read as an int, a symbol as a str, a list as a list, any other as a Token, of the first kind that fits.
Token = namedtuple("Token", "kind text")
LETTERS = r"A-Za-z~!@$%^&*_\-+=<>.?/"
TOKENS = {"open": r"\(", "close": r"\)", "symbol": f"[{LETTERS}][0-9{LETTERS}]*", "keyword": f":[0-9{LETTERS}]+",
    "decimal": r"(?:0|[1-9][0-9]*)\.[0-9]+", "leading zero": r"0[0-9]", "numeral": r"[0-9]+", "binary": r"#b[01]+",
    "hexadecimal": r"#x[0-9A-Fa-f]+", "string": r'"[^"]*(?:""[^"]*)*"(?!")', "unclosed string": r'"',
    "quoted symbol": r"\|[^|\\]*\|", "unclosed quoted symbol": r"\|[^|\\]*\Z", "bad byte": r"[\x00-\xff]"}
KINDS = list(TOKENS)
PATTERN = re.compile(r"(?:[\t\n\r ]+|;[^\n\r]*)*(?:(" + ")|(".join(TOKENS.values()) + r")|\Z)")
REFUSED_TOKENS = ("leading zero", "unclosed string", "unclosed quoted symbol", "bad byte")

@lru_cache(maxsize=2**20)
def atom(kind, text):
    """The s-expression that a token is which is no parenthesis."""
    if kind == "numeral": return int(text) if len(text) <= 40 else 10**40   # which is beyond every limit too
    return text if kind == "symbol" else text[1:-1] if kind == "quoted symbol" else Token(kind, text)

def read_expressions(source):
    """The s-expressions of the source, and then a Token "stop", with the reason where the next one can't be read."""
    lists = [[]]   # all of them, and then the lists that are open
    for match in PATTERN.finditer(source):
        if match.lastindex is None: break
        kind, text = KINDS[match.lastindex - 1], match[match.lastindex]
        if kind in REFUSED_TOKENS or kind == "close" and len(lists) == 1:
            return [*lists[0], Token("stop", "stray close" if kind == "close" else kind)]
        if kind == "open": lists.append([])
        elif kind == "close": lists[-2].append(lists.pop())
        else: lists[-1].append(atom(kind, text))
    return [*lists[0], Token("stop", "" if len(lists) == 1 else "unclosed list")]

def kind_of(item):
    """Whether an s-expression is a numeral, a symbol, a list, or which other token it is."""
    return item.kind if isinstance(item, Token) else {int: "numeral", str: "symbol", list: "list"}[type(item)]

def head_of(item):
    """The symbol with which a list begins; None, where the s-expression is no such list."""
    return item[0] if isinstance(item, list) and item and isinstance(item[0], str) else None

# ---- Forms: CERTIFICATE, the table of the parts; LANGUAGE, the table of the commands ----
# A form says what stands in a list, one behind the other: a word, or the form of a list in it. Behind the last one may
# stand `*`, any number of it, or `?`, it may be absent. CHOICES has what has several forms, by the symbol at the front.
LITERAL, NATURAL = ("natural", "natural", "number"), ("natural",)
CHOICES = {"step": {"cycle": (LITERAL, "*"), "either": LITERAL, "input": NATURAL, "lemma": NATURAL, "clash": NATURAL},
    "item": {"lemma": ((LITERAL, "*"), "step", "*"), "keep": ("natural", "natural")},
    "entry": {"sat": ("value", "*"), "unsat": ("item", "*"), "best": ("height", ("value", "*"), "item", "*"),
              "unbounded": (("height", "*"), ("natural", "*"))}}

def number_of(item, word, fault):
    """A numeral, or if it isn't a natural (- n) with n at least 1."""
    negative = word != "natural" and head_of(item) == "-" and len(item) == 2
    number, most = item[1] if negative else item, GREATEST_NUMBER if word in ("natural", "number") else GREATEST_VALUE
    require(isinstance(number, int) and int(negative) <= number <= most, fault)
    return -number if negative else number

def part_of(item, form, fault):
    """What an s-expression of this form is, else this fault. A list is a tuple, a value of a Bool name a bool."""
    if isinstance(form, tuple): return parts_of(item, form, fault)
    if form in CHOICES:
        require(head_of(item) in CHOICES[form], fault)
        return (item[0], *parts_of(item[1:], CHOICES[form][item[0]], fault))
    if form == "value" and item in ("true", "false"): return item == "true"
    if form in ("natural", "number", "height", "value"): return number_of(item, form, fault)
    if form == "assumption":   # a symbol, or the `not` of one
        require(isinstance(item[1] if head_of(item) == "not" and len(item) == 2 else item, str), fault)
        return item
    require(form in ("any", kind_of(item)), fault)
    return item

def parts_of(items, form, fault):
    """What the s-expressions of a list are that has the form. It goes no deeper than the form."""
    require(isinstance(items, list), fault)
    if form[-1:] == ("*",): form = form[:-2] + form[-2:-1] * (len(items) - len(form) + 2)
    if form[-1:] == ("?",): form = form[:-1] if len(items) == len(form) - 1 else form[:-2]
    require(len(items) == len(form), fault)
    return tuple(part_of(item, part, fault) for item, part in zip(items, form))

def entry_of(expression, version, fault):
    """The entry that the s-expression is in a certificate of this version; else this fault."""
    entry = part_of(expression, "entry", fault)
    items = entry[1:] if entry[0] == "unsat" else entry[3:] if entry[0] == "best" else ()
    has_new_parts = any(item[0] == "keep" or any(step[0] == "clash" for step in item[2:]) for item in items)
    require(version == 2 or not has_new_parts, fault)
    require(entry[0] != "unbounded" or all(map(int.__lt__, entry[2], entry[2][1:])), fault)
    return entry

def version_of(item):
    """The version that a header names; None, where the s-expression is no header."""
    return item[1] if head_of(item) == "dtp-certificate" and item[1:] in ([1], [2]) else None

def split(source):
    """The commands and the entries: CERTIFICATE, "dtp check", reasons 1 to 3."""
    items = read_expressions(source)
    end = next(at for at, item in enumerate(items) if item == ["exit"] or version_of(item) or kind_of(item) == "stop")
    reason = items[end].text if kind_of(items[end]) == "stop" else ""
    require(not reason, f"script: command {end + 1}: {reason}")
    header = end + (items[end] == ["exit"])
    version = version_of(items[header])
    require(version, "certificate: no header")
    entries, behind = [], items[header + 1:]
    for number, item in enumerate(behind, 1):
        if item == ["end"]:
            require(behind[number:] == [Token("stop", "")], "certificate: text after the end")
            return items[:header], entries
        require(item != Token("stop", ""), "certificate: no end")
        entries.append(entry_of(item, version, f"certificate: entry {number} is ill-formed"))

# ---- Terms: LANGUAGE, "Terms" and "From terms to clauses" ----
# A node is (TRUE,), (ATOM, literal), (NOT, member), (AND, members) or (OR, members), over the numbers of earlier nodes.
# A literal (x, y, c) is the bound x - y <= c, a clause a tuple of literals. A formula is read as its node's number, an
# Int term as the tuple of its cases: sums, each under the nodes that guard it. In a sum point 0 has the constant.
TRUE, ATOM, NOT, AND, OR = "true", "atom", "not", "and", "or"
Case = namedtuple("Case", "guards coefficients")
NOTHING = Case((), {})
LEFT_OUT_TERMS = ("forall", "exists", "match", "as", "_", "!", "*", "div", "mod", "abs")
RESERVED = frozenset((*LEFT_OUT_TERMS, *"true false not => and or xor = distinct ite + - <= < >= > let par".split()))

def negation(literal):   # over whole numbers one of a literal and its negation holds
    return literal[1], literal[0], -literal[2] - 1

def cut(keys, index, count):
    """Takes away all keys but the first so many, from the index too."""
    for key in keys[count:]: del index[key]
    del keys[count:]

def require_sort(formulas, *values):
    """All these are formulas, or all are Int terms."""
    require(all(isinstance(value, int) == formulas for value in values), "wrong sort")

def total(cases, sign):
    """The case of a sum of the first case and the others, which have this sign."""
    coefficients = Counter(cases[0].coefficients)
    for case in cases[1:]:
        for point, coefficient in case.coefficients.items(): coefficients[point] += sign * coefficient
    guards = tuple(guard for case in cases for guard in case.guards)
    return Case(guards, {point: coefficient for point, coefficient in coefficients.items() if coefficient})

def difference(left, right):
    """The points x and y and the number n where comparing left with right is comparing x - y with n."""
    coefficients = total((left, right), -1).coefficients
    number = -coefficients.pop(0, 0)
    points = {coefficient: point for point, coefficient in coefficients.items()}
    require(len(points) == len(coefficients) and points.keys() <= {1, -1}, "not a difference")
    require(abs(number) <= GREATEST_DIFFERENCE, "bound too large")
    return points.get(1, 0), points.get(-1, 0), number

class Terms:
    """Reads terms into a table of nodes. They may nest as deep as the input is long, so nothing here calls itself."""
    def __init__(self):
        self.nodes, self.numbers = [], {}
        self.meanings = {"true": lambda: self.node(TRUE), "false": lambda: self.denied(self.node(TRUE))}   # by name
    def node(self, *node):
        """The number of this node, which is made where it isn't there yet."""
        if node not in self.numbers:
            require(len(self.nodes) < MOST_NODES, "too large")
            self.numbers[node] = len(self.nodes)
            self.nodes.append(node)
        return self.numbers[node]
    def denied(self, number):
        kind, *content = self.nodes[number]
        if kind == NOT: return content[0]
        return self.node(ATOM, negation(content[0])) if kind == ATOM else self.node(NOT, number)
    def all_of(self, *members):
        return members[0] if len(members) == 1 else self.node(AND, members)
    def any_of(self, *members):
        return members[0] if len(members) == 1 else self.node(OR, members)
    def read(self, term):
        """What the term is read as. A term under way has a generator, which yields the terms in it for their values."""
        stack, value = [self.reading(term)], None
        while stack:
            try:
                stack.append(self.reading(stack[-1].send(value)))
                value = None
            except StopIteration as end:
                stack.pop()
                value = end.value
        return value
    def reading(self, term):
        if not isinstance(term, list): return self.leaf(term)
        operator, values = self.operator(term), []
        if operator == "let": return (yield from self.let(term))
        least, more, formulas, action = OPERATORS[operator]
        require(len(term) - 1 == least or len(term) - 1 > least and more, "wrong count of arguments")
        for part in islice(term, 1, None): values.append((yield part) if isinstance(part, list) else self.leaf(part))
        if formulas is not None: require_sort(formulas, *values)
        return action(self, *values)
    def operator(self, term):
        head = head_of(term)
        if head is None and term and head_of(term[0]) in ("_", "as"): raise Fault(f"left out: {term[0][0]}")
        require(head is not None, "ill-formed term")
        require(head not in LEFT_OUT_TERMS, f"left out: {head}")
        is_name = head in self.meanings or head in RESERVED
        require(head in OPERATORS or head == "let", "ill-formed term" if is_name else "unknown symbol")
        return head
    def leaf(self, term):
        """What a term is read as that is no list."""
        kind = kind_of(term)
        if kind == "numeral":
            require(term <= GREATEST_CONSTANT, "bound too large")
            return (Case((), {0: term} if term else {}),)
        require(kind == "symbol", "ill-formed term" if kind == "keyword" else f"left out: {kind}")
        require(term in self.meanings, "ill-formed term" if term in RESERVED else "unknown symbol")
        return self.meanings[term]()
    def let(self, term):
        """The generator of a `let`: its terms are read outside, then all its variables are bound at once."""
        bindings, body = parts_of(term[1:], ((("symbol", "any"), "*"), "any"), "ill-formed term")
        names, values = [name for name, _ in bindings], []
        require(names and len(set(names)) == len(names) and RESERVED.isdisjoint(names), "ill-formed term")
        for _, inner in bindings: values.append((yield inner))
        outside = {name: self.meanings[name] for name in names if name in self.meanings}
        self.meanings.update((name, lambda value=value: value) for name, value in zip(names, values))
        result = yield body
        for name in names: del self.meanings[name]
        self.meanings.update(outside)
        return result
    def added(self, sign, *values):
        """The cases of a sum: one for each choice of a case of each summand, the first summand's outside."""
        require(all(count <= MOST_CASES for count in accumulate(map(len, values), int.__mul__)), "too many cases")
        cases = tuple(total(choice, sign) for choice in product(*values))
        for point, coefficient in chain.from_iterable(case.coefficients.items() for case in cases):
            require(abs(coefficient) <= (GREATEST_COEFFICIENT if point else GREATEST_CONSTANT), "bound too large")
        return cases
    def conditional(self, condition, first, second):
        """An `ite`: a formula, or the cases of both under the condition and its denial."""
        require(isinstance(condition, int) and isinstance(first, int) == isinstance(second, int), "wrong sort")
        require(isinstance(first, int) or len(first) + len(second) <= MOST_CASES, "too many cases")
        denied = self.denied(condition)
        if isinstance(first, int): return self.all_of(self.any_of(denied, first), self.any_of(condition, second))
        guarded = [(condition, case) for case in first] + [(denied, case) for case in second]
        return tuple(Case((guard, *case.guards), case.coefficients) for guard, case in guarded)
    def compared(self, comparison, *values):
        """A comparison of all neighbours, or with `distinct` of all pairs."""
        require_sort(isinstance(values[0], int) and comparison in ("=", "distinct"), *values)
        pairs = combinations(values, 2) if comparison == "distinct" else zip(values, values[1:])
        return self.all_of(*[self.pair(comparison, first, second) for first, second in pairs])
    def pair(self, comparison, first, second):
        """The node that compares two formulas; or two Int terms: of any two cases a guard fails, or they compare so."""
        all_of, any_of, no, equal = self.all_of, self.any_of, self.denied, comparison == "="
        if isinstance(first, int) and equal: return all_of(any_of(no(first), second), any_of(first, no(second)))
        if isinstance(first, int): return any_of(all_of(first, no(second)), all_of(no(first), second))
        require(len(first) * len(second) <= MOST_CASES, "too many cases")
        return all_of(*[any_of(*map(no, left.guards + right.guards), self.pair_of_sums(comparison, left, right))
                        for left, right in product(first, second)])
    def pair_of_sums(self, comparison, left, right):
        x, y, number = difference(left, right)
        strict = int(comparison in ("<", ">", "distinct"))
        literals = [(x, y, number - strict), (y, x, -number - strict)]
        if comparison not in ("=", "distinct"): literals = literals[:1] if comparison in ("<", "<=") else literals[1:]
        join = self.any_of if comparison == "distinct" else self.all_of
        return join(*[self.node(ATOM, literal) for literal in literals])

OPERATORS = {   # the least count of arguments, whether more may stand, whether they are formulas, and what is made
    "not": (1, False, True, Terms.denied), "ite": (3, False, None, Terms.conditional),
    "and": (1, True, True, Terms.all_of), "or": (1, True, True, Terms.any_of),
    "=>": (2, True, True, lambda terms, *values: terms.any_of(*map(terms.denied, values[:-1]), values[-1])),
    "xor": (2, True, True, lambda terms, *values: reduce(partial(terms.pair, "distinct"), values)),
    "+": (1, True, False, lambda terms, *values: terms.added(1, *values)),
    "-": (1, True, False, lambda terms, *values: terms.added(-1, *(values if values[1:] else ((NOTHING,), *values)))),
    **{comparison: (2, True, None, lambda terms, *values, comparison=comparison: terms.compared(comparison, *values))
       for comparison in ("=", "distinct", "<=", "<", ">=", ">")}}

# ---- Clauses: LANGUAGE, "From terms to clauses" ----
ASSERTED, DENIED, INNER = 0, 1, 2   # what a node may be

class Problem:
    """Clauses, and how many points there are."""
    def __init__(self, points, clauses):
        self.points, self.clauses, self.clause_set = points, clauses, set(clauses)
        self.greatest_sum = points * (1 + max((abs(literal[2]) for clause in clauses for literal in clause), default=0))
        self.supported = set()   # the lemmas that are known to rest on clauses of this problem alone

def implied(nodes, number, role):
    """What other nodes are, because this one is asserted, denied or inner."""
    kind, *content = nodes[number]
    if kind == NOT: return [(content[0], DENIED if role == ASSERTED else ASSERTED)]
    members = content[0] if kind in (AND, OR) else ()
    if (kind, role) in ((AND, ASSERTED), (OR, DENIED)): return [(member, role) for member in members]
    bodies = [nodes[member][1] if nodes[member][0] == NOT else member for member in members]
    return [(body, INNER) for body in bodies if nodes[body][0] in (AND, OR)]

def literal_of(nodes, fresh, number):
    """The literal of True, of an atom, of an inner node with its fresh point, or of the Not of one."""
    kind, *content = nodes[number]
    if kind == NOT: return negation(literal_of(nodes, fresh, content[0]))   # whose member is no Not
    return content[0] if kind == ATOM else (0, 0, 0) if kind == TRUE else (fresh[number], 0, 0)

def problem_of(nodes, assertions, names):
    """The problem of the assertions, where there are so many declared names."""
    roles = sorted(reached([(number, ASSERTED) for number in assertions], lambda pair: implied(nodes, *pair)))
    fresh = {number: point for point, number in enumerate((n for n, role in roles if role == INNER), names + 1)}
    clauses = []
    for number, role in roles:
        kind, *content = nodes[number]
        if kind == NOT or (kind, role) in ((AND, ASSERTED), (OR, DENIED)): continue
        members = tuple(literal_of(nodes, fresh, member) for member in (content[0] if kind in (AND, OR) else [number]))
        negations = tuple(map(negation, members))
        own = (fresh.get(number), 0, 0)
        if role != INNER: clauses.append(members if role == ASSERTED else negations)
        elif kind == AND: clauses += [(negation(own), member) for member in members] + [(own, *negations)]
        else: clauses += [(negation(own), *members)] + [(own, member) for member in negations]
    return Problem(1 + names + len(fresh), clauses)

# ---- Entries: CERTIFICATE, "When an entry is right" and "What is wrong with an entry" ----
class Lemma:
    """What an item says, and what it was derived from: walks through its tree, which refutes the clause's denials."""
    def __init__(self, problem, lemmas, clause, *steps):
        self.clause, self.used_clauses, self.used_lemmas = clause, [], []
        self.greatest_point = max(chain([-1], *(literal[:2] for literal in clause)))   # of those that are named
        assumed, splits, refuted = Counter(map(negation, clause)), [], False
        require(self.greatest_point < problem.points, "step 0: no such point")
        for number, step in enumerate(steps):
            with placed(f"step {number}"):
                require(not refuted, "steps left over")
                splits.append([self.step(step[0], step[1:], assumed, problem, lemmas), -1])
                refuted = not has_next_case(splits, assumed)
        require(refuted, f"step {len(steps)}: steps missing")
    def step(self, name, content, assumed, problem, lemmas):
        """Takes one step. It gives the clause for each literal of which one case follows; at a leaf this has none."""
        if name == "cycle":
            require(all(map(assumed.get, content)), "not assumed")
            is_closed = all(before[1] == after[0] for before, after in zip(content, content[1:] + content[:1]))
            require(is_closed and sum(literal[2] for literal in content) < 0, "not a cycle")
            return ()
        if name == "either":
            require(max(content[:2]) < problem.points, "no such point")
            self.greatest_point = max(self.greatest_point, *content[:2])
            return content, negation(content)
        known = lemmas if name == "lemma" else problem.clauses
        require(content[0] < len(known), "no such clause")
        used = known[content[0]]
        if name == "lemma":
            self.used_lemmas.append(used)
            self.greatest_point = max(self.greatest_point, used.greatest_point)
            return used.clause
        self.used_clauses.append(used)
        require(name == "input" or all(map(assumed.get, map(negation, used))), "not denied")
        return used if name == "input" else ()

def has_next_case(splits, assumed):
    """Goes on to the next case, if any. A split has a clause, and the place of the literal whose case is at hand."""
    while splits:
        clause, place = splits[-1]
        if place >= 0:
            assumed[clause[place]] -= 1
            assumed[negation(clause[place])] += 1
        splits[-1][1] = place = place + 1
        if place < len(clause):
            assumed[clause[place]] += 1
            return True
        assumed.subtract(map(negation, clause))
        splits.pop()
    return False

def kept(problem, earlier, entry, item):
    """The lemma that an item of an earlier entry says, where it follows from this problem too."""
    require(1 <= entry <= len(earlier) and item < len(earlier[entry - 1]), "step 0: no such kept lemma")
    lemma = earlier[entry - 1][item]
    require(lemma.greatest_point < problem.points, "step 0: no such point")
    unknown = reached([lemma], lambda used: used.used_lemmas, problem.supported)
    require(all(clause in problem.clause_set for used in unknown for clause in used.used_clauses), "step 0: not active")
    problem.supported |= unknown
    return lemma

def refutation(items, problem, earlier):
    """The lemmas of the items, the last of which is the empty clause. `earlier` has those of each earlier entry."""
    lemmas = []
    for number, (kind, *content) in enumerate(items):
        with placed(f"lemma {number}"):
            lemmas.append(Lemma(problem, lemmas, *content) if kind == "lemma" else kept(problem, earlier, *content))
    require(lemmas and not lemmas[-1].clause, "last lemma not empty")
    return lemmas

def check_unbounded(heights, points, problem, x, y):
    """These points can be lowered without end, and x - y with them."""
    lowered = set(points)
    require(len(heights) == problem.points, "wrong count of values")
    require(max(lowered, default=0) < problem.points, "no such point")
    require(x in lowered and y not in lowered, "set is not of the objective")
    for number, clause in enumerate(problem.clauses):
        lasts = any(heights[a] - heights[b] <= c and (b not in lowered or a in lowered) for a, b, c in clause)
        require(lasts, f"clause {number} is not kept")

# ---- Commands: LANGUAGE, "Commands" ----
LEFT_OUT_COMMANDS = "define-fun-rec define-funs-rec define-sort declare-sort declare-datatype declare-datatypes".split()
TRUTH_OPTION = re.compile(":(print-success|produce-(models|proofs|unsat-(cores|assumptions)|assertions|assignments))")
ILL_FORMED = "ill-formed command"   # the refusal of a command's shape

def label_of(attributes):
    """The symbol of `:named` among the attributes behind a term; None without one."""
    is_keyword = [kind_of(attribute) == "keyword" for attribute in attributes]
    require(is_keyword and all(map(max, is_keyword, [False, *is_keyword])), ILL_FORMED)   # a value is behind a keyword
    labels = [label for part, label in zip(attributes, [*attributes[1:], None]) if part == Token("keyword", ":named")]
    require(len(labels) <= 1 and all(isinstance(label, str) for label in labels), ILL_FORMED)
    return labels[0] if labels else None

class Script(Terms):
    """What commands act on; it judges the entries at its questions. Options have no effect on entries."""
    def __init__(self):
        super().__init__()
        self.names, self.sorts, self.assertions = [], [], []   # all names, the declared ones' sorts, the asserted nodes
        self.marks = []   # of each level: how many names, sorts, assertions and nodes there were before it
        self.assuming = False   # whether the last level is of assumptions, until their question is answered
        self.change()
    def change(self):
        """The names, the assertions or the levels are no longer those of the last answer."""
        self.mode, self.problems, self.true_heights = (), {}, None   # the mode is what may be asked for
    def do(self, command):
        """One command. A question gives its objective: (x, y, k) for a minimize of x - y + k, () for the other ones."""
        name = head_of(command)
        require(name not in LEFT_OUT_COMMANDS, f"left out: {name}")
        require(name in COMMANDS, ILL_FORMED if name is None else "unknown command")
        form, action = COMMANDS[name]
        return action(self, *parts_of(command[1:], form, ILL_FORMED))
    def get_value(self, terms):
        require("model" in self.mode, "no model")
        for term in terms: self.read_apart(term)
    def read_apart(self, term):
        """What the term is read as; its nodes are cut off again."""
        count = len(self.nodes)
        value = self.read(term)
        cut(self.nodes, self.numbers, count)
        return value
    def require_new(self, name, parameters=(), sort="Bool"):
        require(not parameters, "left out: parameters")
        require(sort in ("Int", "Bool"), "left out: sort")
        require(name not in self.meanings and name not in RESERVED, "already declared")
    def add(self, name, meaning):
        self.names.append(name)
        self.meanings[name] = meaning
        self.change()
    def declare(self, name, parameters, sort):
        self.require_new(name, parameters, sort)
        require(len(self.sorts) < MOST_NAMES, "too many names")
        self.sorts.append(sort)
        point = len(self.sorts)
        self.add(name, lambda: self.node(ATOM, (point, 0, 0)) if sort == "Bool" else (Case((), {point: 1}),))
    def define(self, name, parameters, sort, term):
        self.require_new(name, parameters, sort)
        value = self.read(term)
        require_sort(sort == "Bool", value)
        self.add(name, lambda: value)
    def assert_term(self, term):
        label, term = (label_of(term[2:]), term[1]) if head_of(term) == "!" else (None, term)
        value = self.read(term)
        require_sort(True, value)
        if label is not None:
            self.require_new(label)
            self.add(label, lambda: value)
        self.assertions.append(value)
        self.change()
    def push(self, count=1, is_counted=True):
        require(len(self.marks) + count <= MOST_LEVELS or not is_counted, "too many levels")
        self.marks += [(len(self.names), len(self.sorts), len(self.assertions), len(self.nodes))] * count
        self.change()
    def pop(self, count=1):
        """(pop n): all is as before the lowest of these levels."""
        require(count <= len(self.marks), "pop below the bottom")
        self.change()
        if count == 0: return
        names, sorts, assertions, nodes = self.marks[-count]
        del self.marks[-count:], self.sorts[sorts:], self.assertions[assertions:]
        cut(self.names, self.meanings, names)
        cut(self.nodes, self.numbers, nodes)
    def assume(self, assumptions):
        """(check-sat-assuming (a ..)): the assumptions are asserted, on a level of their own that isn't counted."""
        self.push(is_counted=False)
        for assumption in assumptions: self.assert_term(assumption)
        self.assuming = True
        return ()
    def minimize(self, term):
        value = self.read_apart(term)
        require_sort(False, value)
        require(len(value) == 1, "left out: ite")
        x, y, number = difference(value[0], NOTHING)
        require(self.problem().greatest_sum <= GREATEST_OBJECTIVE, "objective too large")
        return x, y, -number
    def problem(self, *last):
        """The problem of the active assertions, and where a clause is given with this one more, the last."""
        if last not in self.problems:
            problem = self.problem() if last else problem_of(self.nodes, self.assertions, len(self.sorts))
            self.problems[last] = Problem(problem.points, [*problem.clauses, *last]) if last else problem
        return self.problems[last]
    def answer(self, objective, earlier, entry):
        """The lemmas of the entry, which is right, else a fault. It ends assumptions, and sets what may be asked."""
        lemmas, last = self.judge(objective, earlier, *entry), ("assumptions",) if self.assuming else ()
        if self.assuming: self.pop()
        self.assuming, self.mode = False, ("proof", "core", *last) if entry[0] == "unsat" else ("model",)
        return lemmas
    def judge(self, objective, earlier, kind, *content):
        """The same for an entry of this kind; `earlier` has the lemmas of each earlier entry."""
        require(kind in (("unsat", "best", "unbounded") if objective else ("sat", "unsat")), "wrong kind of entry")
        if kind == "unsat": return refutation(content, self.problem(), earlier)
        if kind == "unbounded": check_unbounded(*content, self.problem(), *objective[:2])
        else: heights = self.heights_of(content if kind == "sat" else content[1])
        if kind != "best": return []
        (x, y, constant), (least, _, *items) = objective, content
        require(heights[x] - heights[y] + constant == least, "value is not attained")
        require(abs(least - constant) <= GREATEST_OBJECTIVE, "value is out of range")
        return refutation(items, self.problem(((x, y, least - constant - 1),)), earlier)
    def heights_of(self, values):
        """The values of the points, where these of the names make all assertions true. `true` is 0, `false` is 1."""
        require(len(values) == len(self.sorts), "wrong count of values")
        for number, (value, sort) in enumerate(zip(values, self.sorts), 1):
            require(isinstance(value, bool) == (sort == "Bool"), f"value {number} has the wrong sort")
        heights = [0] + [1 - value if isinstance(value, bool) else value for value in values]
        if heights != self.true_heights:
            truths = []
            for kind, *body in self.nodes:
                if kind == ATOM: truths.append(heights[body[0][0]] - heights[body[0][1]] <= body[0][2])
                elif kind in (AND, OR): truths.append((all if kind == AND else any)(truths[node] for node in body[0]))
                else: truths.append(kind == TRUE or not truths[body[0]])
            for number, node in enumerate(self.assertions, 1): require(truths[node], f"assertion {number} is false")
            self.true_heights = heights
        return heights

def in_mode(wanted):   # a command that only needs a mode in which this may be asked for
    return (), lambda script: require(wanted in script.mode, f"no {wanted}")
def ignored(*form):   # a command that only needs this form
    return form, lambda script, *parts: None

COMMANDS = {   # the form of each, and what is done
    **dict.fromkeys(("get-assertions", "get-assignment", "get-option"), ignored("any", "*")), "echo": ignored("string"),
    "set-info": ignored("keyword", "any", "?"), "get-info": ignored("keyword"), "exit": ignored(),
    "set-logic": (("any",), lambda script, logic: require(logic == "QF_IDL", "logic not supported")),
    "set-option": (("keyword", "any", "?"), lambda script, keyword, *value: require(
        not TRUTH_OPTION.fullmatch(keyword.text) or value in (("true",), ("false",)), ILL_FORMED)),
    "declare-const": (("symbol", "any"), lambda script, name, sort: script.declare(name, (), sort)),
    "declare-fun": (("symbol", "list", "any"), Script.declare), "assert": (("any",), Script.assert_term),
    "define-fun": (("symbol", "list", "any", "any"), Script.define),
    "push": (("numeral", "?"), Script.push), "pop": (("numeral", "?"), Script.pop), "reset": ((), Script.__init__),
    "check-sat": ((), lambda script: ()), "check-sat-assuming": ((("assumption", "*"),), Script.assume),
    "minimize": (("any",), Script.minimize), "get-value": ((("any", "any", "*"),), Script.get_value),
    "get-model": in_mode("model"), "get-proof": in_mode("proof"), "get-unsat-core": in_mode("core"),
    "get-unsat-assumptions": in_mode("assumptions"), "reset-assertions": ((), Script.__init__)}

def answer_to(source):
    """The line that `dtp check` writes for the bytes of a source, and its status."""
    try:
        commands, entries = split(source.decode("latin-1"))
        script, answered = Script(), []
        for number, command in enumerate(commands, 1):
            with placed(f"script: command {number}"): objective = script.do(command)
            if objective is not None:
                with placed(f"entry {len(answered) + 1}"):
                    require(len(answered) < len(entries), "missing")
                    answered.append(script.answer(objective, answered, entries[len(answered)]))
        require(len(answered) == len(entries), f"entry {len(answered) + 1}: surplus")
    except Fault as reason:
        return f"refused: {reason}", REFUSED
    return "accepted", ACCEPTED

def main():
    with open(sys.argv[1], "rb") if len(sys.argv) > 1 else sys.stdin.buffer as file: source = file.read(MOST_BYTES + 1)
    if len(source) > MOST_BYTES: return TOO_LONG
    line, status = answer_to(source)
    print(line)
    return status

if __name__ == "__main__":
    sys.exit(main())
