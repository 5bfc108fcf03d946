"""A condition as a short Boolean expression, such as `defined(CONFIG_SMP) && NR_CPUS==4`.

The expression can stand after `#if`: a variable that is not defined counts as 0 there, so an option
0 beside `undef` is told with `defined`. No such expression tells texts apart, so where a variable
has an option that is a text, its options are told by their words, as `LEVEL=t1`. It comes from an
irredundant sum of products of the diagram (Minato and Morreale), or from that of its negation,
whichever is shorter when common factors are taken out.
"""
from __future__ import annotations

from collections import Counter
from collections.abc import Iterable, Mapping

from .diagrams import ALWAYS, NEVER, Diagrams
from .space import is_text

# A product: variables in order, each with the set of its options as bits.
Literal = tuple[str, int]
Product = tuple[Literal, ...]

# How tightly an expression holds together: a sum, a product, a comparison, and what needs no
# parentheses anywhere.
SUM, PRODUCT, COMPARISON, ATOM = range(4)
Written = tuple[str, int]

STEPS_AT_MOST = 20_000
PRODUCTS_AT_MOST = 200


class TooLong(Exception):
    """A condition has no short expression."""


class Expressions:
    """The expressions of the conditions of one store, each found once."""

    def __init__(self, diagrams: Diagrams, number_of: Mapping[int, int] | None = None) -> None:
        self._diagrams = diagrams
        self._number_of = number_of or {}
        self._covers: dict[tuple[int, int], tuple[tuple[Product, ...], int]] = {}
        self._texts: dict[tuple[int, int], str] = {}
        self._steps = 0

    def text(self, condition: int, free: int = NEVER) -> str:
        """The expression, which may have what is free or not; `condition(N)` names a condition that
        has no short one.
        """
        pair = (condition, free)
        if pair not in self._texts:
            lower = self._diagrams.difference(condition, free)
            upper = self._diagrams.disjunction(condition, free)
            try:
                self._texts[pair] = self._shortest(lower, upper)
            except TooLong:
                self._texts[pair] = f"condition({self._number_of.get(condition, condition)})"
        return self._texts[pair]

    def _shortest(self, lower: int, upper: int) -> str:
        """The shortest expression that was found between two conditions."""
        if upper == ALWAYS:
            return str(ALWAYS)
        if lower == NEVER:
            return str(NEVER)
        written: list[Written] = []
        negation = self._diagrams.negation
        bounds = ((lower, upper, False), (negation(upper), negation(lower), True))
        for low, high, is_negation in bounds:
            self._steps = 0
            try:
                products, _ = self._cover(low, high)
            except TooLong:
                continue
            written.append(
                self._negated(self._sum(products, False))
                if is_negation
                else self._sum(products, False)
            )
            if is_negation:
                written.append(self._sum(products, True))
        if not written:
            raise TooLong
        return min((text for text, _ in written), key=len)

    def _cover(self, lower: int, upper: int) -> tuple[tuple[Product, ...], int]:
        """Products whose sum has all of the lower condition and nothing outside of the upper one,
        and their sum.
        """
        if lower == NEVER:
            return (), NEVER
        if upper == ALWAYS:
            return ((),), ALWAYS
        if (lower, upper) not in self._covers:
            self._steps += 1
            if self._steps > STEPS_AT_MOST:
                raise TooLong
            self._covers[lower, upper] = self._cover_by_options(lower, upper)
        return self._covers[lower, upper]

    def _cover_by_options(self, lower: int, upper: int) -> tuple[tuple[Product, ...], int]:
        diagrams = self._diagrams
        name = min(diagrams.top(lower), diagrams.top(upper))
        bounds = list(zip(diagrams.parts(lower, name), diagrams.parts(upper, name)))
        shared = ALWAYS
        for _, high in bounds:
            shared = diagrams.conjunction(shared, high)
        options_of: dict[Product, int] = {}
        covered: dict[tuple[int, int], int] = {}
        remaining = NEVER
        for bound in dict.fromkeys(bounds):
            low, high = bound
            products, covered[bound] = self._cover(diagrams.difference(low, shared), high)
            bits = sum(1 << place for place, other in enumerate(bounds) if other == bound)
            for product in products:
                options_of[product] = options_of.get(product, 0) | bits
            remaining = diagrams.disjunction(remaining, diagrams.difference(low, covered[bound]))
        products, everywhere = self._cover(remaining, shared)
        every_option = (1 << len(bounds)) - 1
        found = [
            product if bits == every_option else ((name, bits), *product)
            for product, bits in options_of.items()
        ]
        found.extend(products)
        if len(found) > PRODUCTS_AT_MOST:
            raise TooLong
        parts = [diagrams.disjunction(covered[bound], everywhere) for bound in bounds]
        return tuple(dict.fromkeys(found)), diagrams.make(name, parts)

    def _sum(self, products: Iterable[Product], is_dual: bool) -> Written:
        """The sum of products without their common factors. Its dual is the negation: a product of
        sums of the negated literals.
        """
        left = list(products)
        inner, outer = (SUM, PRODUCT) if is_dual else (PRODUCT, SUM)
        terms: list[Written] = []
        while left:
            counts = Counter(literal for product in left for literal in product)
            common, count = counts.most_common(1)[0] if counts else (None, 0)
            if common is None or count < 2:
                terms.extend(
                    _joined([self._literal(one, is_dual) for one in product], inner)
                    for product in left
                )
                break
            rest = [
                tuple(one for one in product if one != common)
                for product in left
                if common in product
            ]
            left = [product for product in left if common not in product]
            if () in rest:
                terms.append(self._literal(common, is_dual))
            else:
                terms.append(
                    _joined([self._literal(common, is_dual), self._sum(rest, is_dual)], inner)
                )
        return _joined(terms, outer)

    def _literal(self, literal: Literal, is_negated: bool) -> Written:
        name, bits = literal
        options = self._diagrams.variables[name]
        if is_negated:
            bits ^= (1 << len(options)) - 1
        return literal_text(
            name, options, {place for place in range(len(options)) if bits >> place & 1}
        )

    def _negated(self, written: Written) -> Written:
        text, strength = written
        return (f"!{text}" if strength == ATOM else f"!({text})", ATOM)


def _joined(written: list[Written], strength: int) -> Written:
    """Expressions with `||` or `&&` between them."""
    if len(written) == 1:
        return written[0]
    word = " || " if strength == SUM else " && "
    return word.join(text if held >= strength else f"({text})" for text, held in written), strength


def literal_text(name: str, options: tuple[str, ...], chosen: set[int]) -> Written:
    """That the option of a variable is one of these, as short as it can be said."""
    undefined = {place for place, option in enumerate(options) if option == "undef"}
    defined = set(range(len(options))) - undefined
    if undefined and chosen == defined:
        return f"defined({name})", ATOM
    if undefined and chosen == undefined:
        return f"!defined({name})", ATOM
    if any(map(is_text, options)):
        return _by_word(name, options, chosen)
    value_of = [0 if option == "undef" else int(option) for option in options]
    written = _by_value(name, value_of, chosen, set(range(len(options))))
    if undefined and not chosen & undefined:
        inner = _by_value(name, value_of, chosen, defined)
        written.extend(_joined([(f"defined({name})", ATOM), one], PRODUCT) for one in inner)
    elif undefined:
        inner = _by_value(name, value_of, chosen - undefined, defined)
        written.extend(_joined([(f"!defined({name})", ATOM), one], SUM) for one in inner)
    return min(written, key=lambda one: len(one[0]))


def _by_word(name: str, options: tuple[str, ...], chosen: set[int]) -> Written:
    """The chosen options, or all that are not the others."""
    inside = [(f"{name}={options[place]}", COMPARISON) for place in sorted(chosen)]
    outside = [
        (f"{name}!={option}", COMPARISON)
        for place, option in enumerate(options)
        if place not in chosen
    ]
    if len(inside) <= len(outside):
        return _joined(inside, SUM)
    return _joined(outside, PRODUCT)


def _by_value(name: str, value_of: list[int], chosen: set[int], among: set[int]) -> list[Written]:
    """Comparisons that have the chosen places among some, and none of the others of them."""
    inside = sorted({value_of[place] for place in chosen})
    outside = sorted({value_of[place] for place in among - chosen})
    if set(inside) & set(outside):
        return []
    written = [_joined([(f"{name}=={value}", COMPARISON) for value in inside], SUM)]
    if outside:
        written.append(_joined([(f"{name}!={value}", COMPARISON) for value in outside], PRODUCT))
        if inside[0] > outside[-1]:
            written.append((f"{name}>={inside[0]}", COMPARISON))
        if inside[-1] < outside[0]:
            written.append((f"{name}<={inside[-1]}", COMPARISON))
    return written
