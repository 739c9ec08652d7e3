"""Linear arithmetic of integers: sums, bounds, and the multipliers of Farkas' lemma.

A formula that rule `linear` takes says that a sum is at most 0, or is 0. Sums of two or more atoms get a variable of their
own, and a simplex method in the form of Dutertre and de Moura, over exact fractions, looks for values within the bounds. Where
there are none, the row that shows it has the multipliers.
"""
from fractions import Fraction
from math import gcd

from . import terms as t

RELATIONS = {"<": (0, 1, 1), "<=": (0, 1, 0), ">": (1, 0, 1), ">=": (1, 0, 0)}
OPPOSITE = {"<": ">=", "<=": ">", ">": "<=", ">=": "<"}
LARGEST = 2**120


class Sums:
    """The sums of terms, each computed once: a dictionary from atoms to coefficients, and a constant."""

    def __init__(self, table):
        self.table, self.known = table, {}

    def of(self, term):
        if term not in self.known:
            self.known[term] = self.made(term)
        return self.known[term]

    def made(self, term):
        if term.op == "num":
            return {}, term.data
        word = self.table.words.get(term.data) if term.op == "sym" else None
        if word in ("+", "-"):
            return added(self.of(term.args[0]), self.of(term.args[1]), 1 if word == "+" else -1)
        if word == "neg":
            return added(({}, 0), self.of(term.args[0]), -1)
        if word == "*":
            left, right = map(self.of, term.args)
            if not left[0] or not right[0]:
                factor, it = (left[1], right) if not left[0] else (right[1], left)
                return {a: c * factor for a, c in it[0].items() if c * factor}, it[1] * factor
        return {term: 1}, 0

    def of_literal(self, formula):
        """Returns the sum of a formula, and whether it is 0 rather than at most 0; None where `linear` doesn't take it."""
        if not self.table.has_int:
            return None
        negated = formula.op == "not"
        atom = formula.args[0] if negated else formula
        if atom.op == "eq":
            if negated or atom.args[0].sort != self.table.int:
                return None
            return added(self.of(atom.args[0]), self.of(atom.args[1]), -1), True
        word = self.table.words.get(atom.data) if atom.op == "sym" else None
        if word not in RELATIONS:
            return None
        left, right, one = RELATIONS[OPPOSITE[word] if negated else word]
        atoms, constant = added(self.of(atom.args[left]), self.of(atom.args[right]), -1)
        return (atoms, constant + one), False


def added(one, two, factor):
    atoms = dict(one[0])
    for atom, c in two[0].items():
        value = atoms.get(atom, 0) + factor * c
        if value:
            atoms[atom] = value
        else:
            atoms.pop(atom, None)
    return atoms, one[1] + factor * two[1]


def direction(atoms):
    """Returns a sum's direction as a key, and the factor that makes the sum of it."""
    items = sorted(atoms.items(), key=lambda it: it[0].key)
    common = 0
    for _, c in items:
        common = gcd(common, c)
    factor = common if items[0][1] > 0 else -common
    return tuple((atom, c // factor) for atom, c in items), factor


class Simplex:
    """Bounds on atoms and sums with their reasons, and values that keep to them."""

    def __init__(self):
        self.places, self.keys, self.rows, self.columns = {}, [], {}, []
        self.value, self.low, self.high, self.trail, self.changes = [], [], [], [], 0

    def variable(self, key):
        """Returns the variable of a direction; one of several atoms gets a row."""
        if key in self.places:
            return self.places[key]
        row = {}
        if len(key) > 1 or key[0][1] != 1:
            for atom, c in key:
                it = self.variable(((atom, 1),))
                for column, d in self.rows[it].items() if it in self.rows else [(it, 1)]:
                    row[column] = row.get(column, 0) + c * d
        place = len(self.keys)
        self.places[key] = place
        self.keys.append(key)
        self.low.append(None)
        self.high.append(None)
        self.columns.append(set())
        row = {column: Fraction(c) for column, c in row.items() if c}
        self.value.append(sum((c * self.value[it] for it, c in row.items()), Fraction(0)))
        if len(key) > 1 or key[0][1] != 1:
            self.rows[place] = row
            for it in row:
                self.columns[it].add(place)
        return place

    def mark(self):
        return len(self.trail)

    def undo(self, mark):
        while len(self.trail) > mark:
            side, place, old = self.trail.pop()
            side[place] = old

    def assume(self, formula, found):
        """Takes a formula with its sum. Returns the multipliers of a contradiction, or None."""
        (atoms, constant), equation = found
        if not atoms:
            if constant > 0 or (equation and constant):
                return [(formula, 1 if constant > 0 else -1)]
            return None
        key, factor = direction(atoms)
        place = self.variable(key)
        limit = Fraction(-constant, factor)
        for is_high in (True, False):
            if equation or (factor > 0) == is_high:
                weight = Fraction(1 if is_high else -1, factor)
                clash = self.bound(place, is_high, limit, (formula, weight))
                if clash:
                    return clash
        return None

    def bound(self, place, is_high, limit, reason):
        side, other = (self.high, self.low) if is_high else (self.low, self.high)
        old = side[place]
        if old is not None and (old[0] <= limit if is_high else old[0] >= limit):
            return None
        across = other[place]
        if across is not None and (across[0] > limit if is_high else across[0] < limit):
            return multipliers([(Fraction(1), reason), (Fraction(1), across[1])])
        self.trail.append((side, place, old))
        self.changes += 1
        side[place] = (limit, reason)
        if place not in self.rows and (self.value[place] > limit if is_high else self.value[place] < limit):
            self.update(place, limit)
        return None

    def update(self, place, value):
        change = value - self.value[place]
        self.value[place] = value
        for row in self.columns[place]:
            self.value[row] += self.rows[row][place] * change

    def check(self):
        """Looks for values within all bounds. Returns the multipliers of a contradiction, or None."""
        while True:
            broken = None
            for place in sorted(self.rows):
                low, high, value = self.low[place], self.high[place], self.value[place]
                if low is not None and value < low[0]:
                    broken = (place, low, 1)
                elif high is not None and value > high[0]:
                    broken = (place, high, -1)
                if broken:
                    break
            if not broken:
                return None
            place, (limit, reason), sign = broken
            row = self.rows[place]
            for column in sorted(row):
                up = row[column] * sign > 0
                side = self.high[column] if up else self.low[column]
                if side is None or (self.value[column] < side[0] if up else self.value[column] > side[0]):
                    self.pivot(place, column, limit)
                    break
            else:
                parts = [(Fraction(1), reason)]
                for column, c in row.items():
                    side = self.high[column] if c * sign > 0 else self.low[column]
                    parts.append((abs(c), side[1]))
                return multipliers(parts)

    def pivot(self, place, column, limit):
        """Lets a column take the place of a row, whose variable gets a value."""
        row = self.rows.pop(place)
        c = row.pop(column)
        theta = (limit - self.value[place]) / c
        self.value[place] = limit
        self.columns[column].discard(place)
        new = {it: -d / c for it, d in row.items()}
        new[place] = 1 / c
        for it in row:
            self.columns[it].discard(place)
        self.value[column] += theta
        users = self.columns[column]
        self.columns[column] = set()
        for user in users:
            other = self.rows[user]
            factor = other.pop(column)
            self.value[user] += factor * theta
            for it, d in new.items():
                value = other.get(it, 0) + factor * d
                if value:
                    other[it] = value
                    self.columns[it].add(user)
                elif it in other:
                    del other[it]
                    self.columns[it].discard(user)
        self.rows[column] = new
        for it in new:
            self.columns[it].add(column)

    # ---- what bounds say
    def says(self, found):
        """Returns whether the bounds of one direction make a sum at most 0 (or 0): True, False, or None."""
        (atoms, constant), equation = found
        if not atoms:
            return constant == 0 if equation else constant <= 0
        key, factor = direction(atoms)
        place = self.places.get(key)
        if place is None:
            return None
        limit = Fraction(-constant, factor)
        low, high = self.low[place], self.high[place]
        if equation:
            if (low is not None and low[0] > limit) or (high is not None and high[0] < limit):
                return False
            return True if low is not None and high is not None and low[0] == limit == high[0] else None
        near, far = (high, low) if factor > 0 else (low, high)
        if near is not None and (near[0] <= limit if factor > 0 else near[0] >= limit):
            return True
        if far is not None and (far[0] > limit if factor > 0 else far[0] < limit):
            return False
        return None

    def value_of(self, total):
        atoms, constant = total
        result = Fraction(constant)
        for atom, c in atoms.items():
            result += c * self.value[self.variable(((atom, 1),))]
        return result


def multipliers(parts):
    """Returns formulas with whole multipliers, from weights of bounds."""
    found = {}
    for weight, (formula, factor) in parts:
        found[formula] = found.get(formula, 0) + weight * factor
    scale = 1
    for value in found.values():
        scale = scale * value.denominator // gcd(scale, value.denominator)
    whole = {formula: int(value * scale) for formula, value in found.items() if value}
    common = 0
    for value in whole.values():
        common = gcd(common, value)
    return [(formula, value // common) for formula, value in whole.items()]


def term_of(key, table):
    """Returns the sum of a direction as a term."""
    made = None
    for atom, c in key:
        part = atom if abs(c) == 1 else t.sym(table.ints["*"], (t.num(abs(c), table.int), atom), table.int)
        if made is None:
            made = part if c > 0 else t.sym(table.ints["neg"], (part,), table.int)
        else:
            made = t.sym(table.ints["+" if c > 0 else "-"], (made, part), table.int)
    return made
