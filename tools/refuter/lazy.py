"""Which conjunctions of a printed problem are `&&`, and which disjunctions `||`: the text has `and` and `or` for both.

The connectives of a source in the order of its text are those of its formulas, read from left to right. So the connectives of
an assertion are looked for among them, as they follow one another; each place where they fit is a choice.
"""
import itertools
import re

from . import reader

KINDS = {"/\\": "and", "&&": "and", "\\/": "or", "||": "or"}
MOST = 64


def connectives(source):
    """Returns the connectives of a source that are printed as `and` and `or`, in the order of its text."""
    text = re.sub(r"\(\*(?!\)).*?\*\)", " ", source, flags=re.DOTALL)
    return re.findall(r"&&|\|\||/\\|\\/", text)


def places_of(form, count=0):
    """Returns the connectives of an s-expression from left to right, each with its number in the order of the text, and the number
    after them.
    """
    if not isinstance(form, list):
        return [], count
    own = form[0] if form and form[0] in ("and", "or") else None
    number, found = count, []
    count += own is not None
    for at, it in enumerate(form[1:] if own else form):
        if own and at == 1:
            found.append((own, number))
        inner, count = places_of(it, count)
        found += inner
    return found, count


def fits(kinds, words):
    """Returns the parts of `words` whose kinds are these, the first ones first."""
    size = len(kinds)
    return [words[at : at + size] for at in range(len(words) - size + 1) if [KINDS[it] for it in words[at : at + size]] == kinds]


def choices(problem, source):
    """Returns sets of the numbers of connectives that may be `&&` and `||`, the likely ones first."""
    words, count, rows = connectives(source), 0, []
    for form in reader.s_expressions(problem):
        found, count = places_of(form, count)
        if found:
            rows.append(found)
    lazy_kinds = {KINDS[it] for it in words if it in ("&&", "||")}
    everywhere = frozenset(number for row in rows for kind, number in row if kind in lazy_kinds)
    ways = []
    for row in rows:
        numbers, fitting = [number for _, number in row], fits([kind for kind, _ in row], words)
        sets = [frozenset(n for n, it in zip(numbers, window) if it in ("&&", "||")) for window in fitting]
        ways.append(list(dict.fromkeys(sets)) or [everywhere.intersection(numbers), frozenset()])
    made = [in_order(rows, words), everywhere]
    made += [frozenset().union(*it) for it in itertools.islice(itertools.product(*ways), MOST)]
    free = sorted(everywhere)
    for size in range(1, len(free)):
        made += map(frozenset, itertools.islice(itertools.combinations(free, size), MOST))
    return [it for it in dict.fromkeys(made) if it][:MOST]


def in_order(rows, words):
    """Returns the choice where each assertion's connectives are the next ones that fit."""
    at, found = 0, set()
    for row in rows:
        kinds = [kind for kind, _ in row]
        for start in range(at, len(words) - len(kinds) + 1):
            window = words[start : start + len(kinds)]
            if [KINDS[it] for it in window] == kinds:
                found |= {number for (_, number), it in zip(row, window) if it in ("&&", "||")}
                at = start + len(kinds)
                break
    return frozenset(found)
