"""Equations of whole numbers, solved one by one: what an atom is equal to, and where no whole numbers solve them.

Each equation is reduced by those before it, and where it has an atom with the factor 1 or -1, that atom is from then on what the
rest says. An equation whose factors have a divisor that its constant lacks has no whole solution.
"""
from math import gcd

from .arithmetic import added


class Solved:
    def __init__(self):
        self.rows, self.used, self.unsolvable = {}, [], None

    def reduced(self, total):
        """Returns a sum without the atoms that are solved."""
        for atom in sorted(total[0], key=lambda it: it.key):
            if atom in self.rows and atom in total[0]:
                total = added(total, self.rows[atom], -total[0][atom])
        return total

    def take(self, formula, total):
        """Takes an equation, whose sum is 0. `unsolvable` has the sum of one that no whole numbers solve."""
        self.used.append(formula)
        total = self.reduced(total)
        atoms, constant = total
        if not atoms or self.unsolvable:
            return
        common = 0
        for c in atoms.values():
            common = gcd(common, c)
        if constant % common:
            self.unsolvable = total
            return
        total = {it: c // common for it, c in atoms.items()}, constant // common
        for atom in sorted(total[0], key=lambda it: it.key):
            if abs(total[0][atom]) == 1:
                row = added(({}, 0), total, total[0][atom])
                for it, old in list(self.rows.items()):
                    if atom in old[0]:
                        self.rows[it] = added(old, row, -old[0][atom])
                self.rows[atom] = row
                return
