"""Constraints of an instant, worked out apart from lurette.

An expression is a value here and no text. By the rules of docs/LANGUAGE.md alone this module works
out what it says once all that is known is put in, and how much work a search for its solutions may
need. The first solution it finds by going through all points.
"""

import itertools
import operator
from collections import namedtuple

import apart

# -- Expressions -----------------------------------------------------------------------------------

# A literal has its kind and its text, and a name its variable, which is one of apart.py.
Literal = namedtuple("Literal", "kind text")
Name = namedtuple("Name", "variable")
Pre = namedtuple("Pre", "variable")
Unary = namedtuple("Unary", "sign part")
Binary = namedtuple("Binary", "sign left right")
If = namedtuple("If", "condition yes no")

ARITHMETIC = ("+", "-", "*", "/", "div", "mod")


def parts_of(expression):
    """The expressions that an expression is made of."""
    return [it for it in expression if isinstance(it, (Literal, Name, Pre, Unary, Binary, If))]


def names_in(expression):
    """The names of variables in an expression, each as often as it stands there."""
    if isinstance(expression, (Name, Pre)):
        return [expression]
    return [it for part in parts_of(expression) for it in names_in(part)]


def is_known(expression):
    """Whether an expression names no variable outside of `pre`."""
    return not any(isinstance(it, Name) for it in names_in(expression))


def kind_of(expression):
    if isinstance(expression, Literal):
        return expression.kind
    if isinstance(expression, (Name, Pre)):
        return expression.variable.kind
    if isinstance(expression, If):
        return kind_of(expression.yes)
    if isinstance(expression, Unary):
        return kind_of(expression.part)
    return kind_of(expression.left) if expression.sign in ARITHMETIC else "bool"


def is_comparison(expression):
    """Whether an expression compares two numbers."""
    is_joined = isinstance(expression, Binary) and kind_of(expression) == "bool"
    return is_joined and kind_of(expression.left) != "bool"


def text_of(expression):
    """The text of an expression, in which each part that has parts stands in parentheses."""
    if isinstance(expression, Literal):
        return expression.text
    if isinstance(expression, Name):
        return expression.variable.name
    if isinstance(expression, Pre):
        return f"pre {expression.variable.name}"
    parts = [f"({text_of(it)})" if parts_of(it) else text_of(it) for it in parts_of(expression)]
    if isinstance(expression, If):
        return "if {} then {} else {}".format(*parts)
    return f" {expression.sign} ".join(parts if len(parts) > 1 else ["", *parts]).lstrip()


# -- Numbers ---------------------------------------------------------------------------------------


class Fault(Exception):
    """An arithmetic fault, named by its kind."""


# What is known before a search: how many decimals a real has, and what `pre x` is, by this name.
Setting = namedtuple("Setting", "decimals known")

# A sum of raw coefficients times variables, as pairs of a name and a number that isn't 0 in the
# order of the names, and of a raw constant. A number that is known is a constant alone.
Form = namedtuple("Form", "terms constant")

# No raw number is greater.
BOUND = 10**12


def rounded(dividend, divisor):
    """A quotient to the nearest whole number; where two are as near, the one farther from 0."""
    size = (2 * abs(dividend) + abs(divisor)) // (2 * abs(divisor))
    return size if (dividend < 0) == (divisor < 0) else -size


def truncated(dividend, divisor):
    """A quotient without its fraction."""
    size = abs(dividend) // abs(divisor)
    return size if (dividend < 0) == (divisor < 0) else -size


def changed(form, change):
    """The form whose coefficients and whose constant are changed."""
    terms = [(name, change(factor)) for name, factor in form.terms]
    return Form(tuple(it for it in terms if it[1]), change(form.constant))


def plus(left, right):
    factors = dict(left.terms)
    for name, factor in right.terms:
        factors[name] = factors.get(name, 0) + factor
    terms = sorted(it for it in factors.items() if it[1])
    return Form(tuple(terms), left.constant + right.constant)


def minus(left, right):
    return plus(left, changed(right, operator.neg))


def raw_of(literal, decimals):
    """The raw number of a number as it is written."""
    whole, _, rest = literal.text.partition(".")
    if literal.kind == "int":
        return int(whole)
    return rounded(int(whole + rest) * 10**decimals, 10 ** len(rest))


def previous(variable, setting):
    """What `pre` of a variable is."""
    value = setting.known.get(f"pre {variable.name}")
    if value is None:
        raise Fault("NoPrevious")
    return value


def one_of(expression, setting):
    """The raw number of 1, of the kind of an expression."""
    return 10**setting.decimals if kind_of(expression) == "real" else 1


def form_of(expression, setting):
    """The form of a number, of which each part's raw numbers are within the bound."""
    form = unbounded(expression, setting)
    if any(abs(it) > BOUND for it in (form.constant, *dict(form.terms).values())):
        raise Fault("Overflow")
    return form


def unbounded(expression, setting):
    """The form of a number, whose own raw numbers aren't judged yet."""
    if isinstance(expression, Literal):
        return Form((), raw_of(expression, setting.decimals))
    if isinstance(expression, Pre):
        return Form((), previous(expression.variable, setting))
    if isinstance(expression, Name):
        return Form(((expression.variable.name, one_of(expression, setting)),), 0)
    if isinstance(expression, If):
        is_true = said(expression.condition, setting)
        return form_of(expression.yes if is_true else expression.no, setting)
    if isinstance(expression, Unary):
        return changed(form_of(expression.part, setting), operator.neg)
    return of_both(expression, setting)


def of_both(expression, setting):
    """The form of an operation on two numbers."""
    sign, left, right = expression
    forms = form_of(left, setting), form_of(right, setting)
    if sign in ("+", "-"):
        return plus(*forms) if sign == "+" else minus(*forms)
    one = one_of(expression, setting)
    if sign == "*":
        form, factor = reversed(forms) if is_known(left) else forms
        return changed(form, lambda it: rounded(it * factor.constant, one))
    dividend, divisor = forms[0], forms[1].constant
    if divisor == 0:
        raise Fault("DivisionByZero")
    if kind_of(left) == "real":
        return changed(dividend, lambda it: rounded(it * one, divisor))
    quotient = truncated(dividend.constant, divisor)
    return Form((), dividend.constant - quotient * divisor if sign == "mod" else quotient)


# -- Formulas --------------------------------------------------------------------------------------

# A formula is True, False or one of these, which have no True or False as a part. Compared is a
# comparison of a form with 0, whose sign is a key of SIGNS.
Flag = namedtuple("Flag", "name")
Compared = namedtuple("Compared", "sign form")
Not = namedtuple("Not", "part")
And = namedtuple("And", "left right")
Or = namedtuple("Or", "left right")
Xor = namedtuple("Xor", "left right")
Either = namedtuple("Either", "condition yes no")

SIGNS = {"<": operator.lt, "<=": operator.le, "=": operator.eq}


def negation(part):
    return not part if isinstance(part, bool) else Not(part)


def conjunction(left, right):
    if isinstance(left, bool):
        return right if left else False
    if isinstance(right, bool):
        return left if right else False
    return And(left, right)


def disjunction(left, right):
    if isinstance(left, bool):
        return True if left else right
    if isinstance(right, bool):
        return True if right else left
    return Or(left, right)


def unlikeness(left, right):
    if isinstance(left, bool):
        return negation(right) if left else right
    if isinstance(right, bool):
        return negation(left) if right else left
    return Xor(left, right)


# What each sign between Booleans says.
JOINED = {
    "and": conjunction,
    "or": disjunction,
    "xor": unlikeness,
    "<>": unlikeness,
    "=": lambda left, right: negation(unlikeness(left, right)),
    "=>": lambda left, right: disjunction(negation(left), right),
}
# With which truth of a left part that is known the right part isn't looked at, and the truth of the
# whole then.
SETTLED = {"and": (False, False), "or": (True, True), "=>": (False, True)}


def said(expression, setting):
    """The formula of a Boolean: truths are absorbed, from the parts to the whole."""
    if isinstance(expression, Literal):
        return expression.text == "true"
    if isinstance(expression, Name):
        return Flag(expression.variable.name)
    if isinstance(expression, Pre):
        return previous(expression.variable, setting) == 1
    if isinstance(expression, Unary):
        return negation(said(expression.part, setting))
    if isinstance(expression, If):
        return said_by_if(expression, setting)
    if is_comparison(expression):
        return said_by_comparison(expression, setting)
    left = said(expression.left, setting)
    settling, whole = SETTLED.get(expression.sign, (None, None))
    if is_known(expression.left) and left is settling:
        return whole
    return JOINED[expression.sign](left, said(expression.right, setting))


def said_by_if(expression, setting):
    condition = said(expression.condition, setting)
    if is_known(expression.condition):
        return said(expression.yes if condition else expression.no, setting)
    yes, no = said(expression.yes, setting), said(expression.no, setting)
    if isinstance(condition, bool):
        return yes if condition else no
    return Either(condition, yes, no)


def said_by_comparison(expression, setting):
    """What is compared is the difference of two numbers with 0, and nothing is rounded."""
    sign, *sides = expression
    left, right = [form_of(it, setting) for it in sides]
    form = minus(right, left) if sign in (">", ">=") else minus(left, right)
    sign = "=" if sign == "<>" else sign.replace(">", "<")
    if is_known(expression):
        found = SIGNS[sign](form.constant, 0)
    else:
        found = Compared(sign, scaled(form, kind_of(sides[0]), setting))
    return negation(found) if expression.sign == "<>" else found


def scaled(form, kind, setting):
    """A form in units that are so fine that one rule serves ints and reals."""
    one = 10**setting.decimals
    by = one if kind == "int" else 1
    terms = [(name, factor * by) for name, factor in form.terms]
    return Form(tuple(terms), form.constant * one)


def said_by_all(expressions, setting):
    """The formula of constraints that hold together. They are worked out from left to right."""
    whole = True
    for it in expressions:
        whole = conjunction(whole, said(it, setting))
    return whole


# -- The need --------------------------------------------------------------------------------------


def conjuncts_of(formula):
    """The parts of the outermost conjunctions."""
    if isinstance(formula, And):
        return conjuncts_of(formula.left) + conjuncts_of(formula.right)
    return [formula]


def atoms_of(formula):
    """The different names and comparisons of a formula."""
    if isinstance(formula, bool):
        return set()
    if isinstance(formula, (Flag, Compared)):
        return {formula}
    return set().union(*map(atoms_of, formula))


def choices_of(conjunct):
    """How many choices among truths a conjunct has."""
    atom = conjunct.part if isinstance(conjunct, Not) else conjunct
    if isinstance(atom, Compared):
        return int(atom.sign == "=" and atom is not conjunct)
    return 0 if isinstance(atom, Flag) else len(atoms_of(conjunct))


def names_of(comparison):
    return {name for name, _ in comparison.form.terms}


def hard_comparisons(formula, variables):
    """The comparisons that make a search hard."""
    compared = [it for it in atoms_of(formula) if isinstance(it, Compared)]
    several = [it for it in compared if len(names_of(it)) > 1]
    is_easy = lambda it: is_even_difference(it, variables) or is_alone(it, several)
    return [it for it in several if not is_easy(it)]


def is_difference(comparison):
    """Whether this speaks of the difference of two variables."""
    factors = [factor for _, factor in comparison.form.terms]
    return len(factors) == 2 and sum(factors) == 0


def is_even_difference(comparison, variables):
    """Whether this speaks of the difference of two variables of equal steps."""
    steps = {it.step for it in variables if it.name in names_of(comparison)}
    return is_difference(comparison) and len(steps) == 1


def is_alone(comparison, several):
    """Whether this is an inequality that shares no variable with another one of these."""
    others = [it for it in several if it != comparison]
    return comparison.sign != "=" and not any(names_of(comparison) & names_of(it) for it in others)


def need_of(formula, variables):
    """How much work a search for values of these variables may need."""
    choices = sum(choices_of(it) for it in conjuncts_of(formula))
    need = 180 * (len(variables) + 1) * 3**choices
    hard = set().union(*map(names_of, hard_comparisons(formula, variables)))
    for variable in variables:
        if variable.name in hard:
            need *= len(apart.points_of(variable))
    return min(need, 2**127)


# -- Solutions -------------------------------------------------------------------------------------

# How many points are gone through at most.
MOST_POINTS = 30_000


class TooManyPoints(Exception):
    """That the points that were gone through are no solutions, and that there are more."""


# A formula as an expression of Python, with {} for each part's.
PYTHON = {
    Not: "(not {})",
    And: "({} and {})",
    Or: "({} or {})",
    Xor: "({} != {})",
    Either: "({1} if {0} else {2})",
}
PYTHON_SIGNS = {"<": "<", "<=": "<=", "=": "=="}


def python_of(formula):
    """A formula as an expression of Python over its variables' raw numbers."""
    if isinstance(formula, bool):
        return str(formula)
    if isinstance(formula, Flag):
        return formula.name
    if isinstance(formula, Compared):
        terms = [f"{factor} * {name}" for name, factor in formula.form.terms]
        terms.append(str(formula.form.constant))
        return f"({' + '.join(terms)} {PYTHON_SIGNS[formula.sign]} 0)"
    return PYTHON[type(formula)].format(*map(python_of, formula))


def points_in(orders):
    """All points, in the order in which they are tried; of those past the most not all."""
    cut = [itertools.islice(it, MOST_POINTS + 1) for it in orders]
    return itertools.product(*cut)


def first_solution(formula, variables, orders):
    """The first point at which a formula holds, or None. Values of the last variable vary first."""
    names = ", ".join(it.name for it in variables)
    holds = eval(f"lambda {names}: {python_of(formula)}")
    for number, point in enumerate(points_in(orders)):
        if number == MOST_POINTS:
            raise TooManyPoints
        if holds(*point):
            return point
    return None
