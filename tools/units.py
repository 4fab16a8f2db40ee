"""Quantities and their units, in exact arithmetic: text to figures in the sheet's unit, and back."""
from __future__ import annotations

import re
from decimal import ROUND_CEILING, ROUND_FLOOR, ROUND_HALF_UP, Context, Decimal
from fractions import Fraction
from typing import NamedTuple

NUMBER = re.compile(r"([0-9]+\.?[0-9]*|\.[0-9]+)(?:[eE][+-]?[0-9]{1,2})?")
LONGEST_NUMBER = 40
DIGITS = 9                              # shown of a number that does not end sooner
SPELLINGS = {"sec": "s", "second": "s", "seconds": "s", "minute": "min", "minutes": "min", "hr": "h", "hour": "h",
             "hours": "h", "day": "d", "days": "d", "foot": "ft", "feet": "ft", "mile": "mi", "miles": "mi",
             "cfs": "ft3/s", "/s": "1/s", "s-1": "1/s"}
LETTERS = str.maketrans({"µ": "u", "μ": "u", "²": "2", "³": "3", "^": None, "l": "L"})


class BadText(ValueError):
    """A number or a unit that is not understood, in words for whoever wrote it."""


class Unit(NamedTuple):
    """A unit that somebody wrote: its name, and how many of the figures that a sheet holds one of it is."""

    name: str
    size: Fraction


class Quantity(NamedTuple):
    """A kind of figure; each unit with how many of the sheet's units it is, the sheet's own first."""

    name: str
    units: dict[str, Fraction]
    shown: tuple[str, ...]              # units for reading back, powers of ten, the best liked first

    @property
    def own_unit(self) -> str:
        return next(iter(self.units))

    def factor(self, unit: str) -> Fraction:
        """How many of the sheet's units one of these is."""
        found = self.units.get(spelled(unit))
        if found is None:
            raise BadText(f"'{unit}' is not a unit of {self.name}: write one of {', '.join(self.units)}")
        return found


def quantity(name: str, shown: str, **units: str) -> Quantity:
    """Units come as text, '1000' or '1000/60', under names that Python can spell: _ for /."""
    return Quantity(name, {unit.replace("_", "/"): Fraction(size) for unit, size in units.items()},
                    tuple(shown.split()))


COUNT = Quantity("a count", {"-": Fraction(1)}, ("-",))
TIME = quantity("time", "s", s="1", min="60", h="3600", d="86400")
# a foot is 30.48 cm, a mile 5,280 feet, both exactly
LENGTH = quantity("length", "m cm", cm="1", m="100", km="100000", ft="30.48", mi="160934.4")
FLOW = quantity("flow", "L/s mL/s m3/s", mL_s="1", cm3_s="1", L_s="1000", m3_s="1000000", L_min="1000/60",
                m3_h="1000000/3600", ft3_s="28316.846592")
AREA = quantity("area", "m2 cm2", cm2="1", dm2="100", m2="10000", ft2="929.0304")
DISPERSION = quantity("dispersion", "m2/s cm2/s", cm2_s="1", m2_s="10000", ft2_s="929.0304")
LATERAL_FLOW = quantity("lateral flow", "mL/s/km L/s/km m3/s/km", mL_s_km="1", L_s_km="1000", m3_s_km="1000000",
                        mL_s_m="1000", L_s_m="1000000", m3_s_m="1000000000", ft3_s_mi="92903040/5280",
                        ft3_s_ft="92903040")
CONCENTRATION = quantity("concentration", "mg/L ug/L ng/L", ng_L="1", ug_L="1000", mg_L="1000000",
                         g_L="1000000000", ug_m3="1", mg_m3="1000", g_m3="1000000")
SEDIMENT = quantity("sediment per volume of water", "g/m3", g_m3="1", mg_L="1", kg_m3="1000", g_L="1000")
DISTRIBUTION = quantity("a distribution coefficient", "mL/g", mL_g="1", cm3_g="1", L_kg="1", L_g="1000",
                        m3_kg="1000", m3_g="1000000")
RATE = Quantity("a rate", {"1e-9/s": Fraction(1), "1/s": Fraction(10 ** 9), "1/min": Fraction(10 ** 9, 60),
                           "1/h": Fraction(10 ** 9, 3600), "1/d": Fraction(10 ** 9, 86400)}, ("1/s",))

# The quantity of each field of a sheet, by document 01's names
HEADER_KINDS = {"dt": TIME, "dx": LENGTH, "M": COUNT, "interval": COUNT, "top_flow": FLOW}
REACH_KINDS = {"segments": COUNT, "D": DISPERSION, "A": AREA, "AS": AREA, "ALPHA": RATE, "qin": LATERAL_FLOW,
               "qout": LATERAL_FLOW, "CL": CONCENTRATION, "LAMBDA": RATE, "LAMBDA2": RATE, "LAMHAT": RATE,
               "LAMHAT2": RATE, "RHO": SEDIMENT, "Kd": DISTRIBUTION, "CB": CONCENTRATION, "start": CONCENTRATION}
BAND_KINDS = {"lowest": FLOW, "highest": FLOW, "A": AREA, "D": DISPERSION, "AS": AREA}


def spelled(unit: str) -> str:
    """A unit as the tables spell it: mg/l, µg/L, m², m^3/s, /s and hours are taken too."""
    plain = SPELLINGS.get(unit, unit)
    return plain if plain in RATE.units else plain.translate(LETTERS)


def number(text: str) -> Fraction:
    """The exact value of a decimal number, such as 12, 0.15 or 4.545e-6."""
    if "," in text:
        raise BadText(f"'{text}' has a comma: write 28350 or 0.15, with a point and no separators")
    if text.startswith(("-", "+")) and NUMBER.fullmatch(text[1:]):
        raise BadText(f"'{text}' has a sign: no figure of a sheet is below 0, and none is written with +")
    if len(text) > LONGEST_NUMBER or not NUMBER.fullmatch(text):
        raise BadText(f"'{text[:LONGEST_NUMBER]}' is not a number such as 12, 0.15 or 4.545e-6")
    return Fraction(text)


def decimal(value: Fraction, rounding: str = ROUND_HALF_UP) -> tuple[str, bool]:
    """A number as it is written in a text, rounded where it does not end soon; and whether it is exact."""
    cut = Context(DIGITS, rounding).divide(Decimal(value.numerator), Decimal(value.denominator)).normalize()
    return format(cut, "f" if abs(cut) >= 1 else "g"), Fraction(cut) == value


def about(value: Fraction, rounding: str = ROUND_HALF_UP) -> str:
    """A number in words, which say where it is rounded."""
    text, exact = decimal(value, rounding)
    return text if exact else f"about {text}"


def span(low: int, high: int, unit: Unit) -> str:
    """A range in another unit, rounded inwards: what is shown lies in it."""
    least, low_exact = decimal(low / unit.size, ROUND_CEILING)
    most, high_exact = decimal(high / unit.size, ROUND_FLOOR)
    return f"{'' if low_exact and high_exact else 'about '}{least} to {most} {unit.name}"


def in_unit(figure: int, kind: Quantity, unit: str) -> str:
    """A figure of the sheet in one of the units shown, exactly: 12.5, or 3e-5 below a thousandth.

    These units are powers of ten of the sheet's own, so that only the point moves.
    """
    places = len(str(kind.units[unit])) - 1
    digits = str(figure)
    if figure and len(digits) <= places - 3:
        power, digits = len(digits) - 1 - places, digits.rstrip("0")
        return f"{digits[0]}{'.' if len(digits) > 1 else ''}{digits[1:]}e{power}"
    digits = digits.rjust(places + 1, "0")
    cut = len(digits) - places
    rest = digits[cut:].rstrip("0")
    return f"{digits[:cut]}.{rest}" if rest else digits[:cut]


def liked_unit(kind: Quantity, figures: list[int]) -> str:
    """The unit in which the longest of the figures is shortest; of equals the best liked."""
    return min(kind.shown, key=lambda unit: max(len(in_unit(figure, kind, unit)) for figure in figures))


def with_unit(figure: int, kind: Quantity) -> str:
    """A figure with the unit that suits it."""
    unit = liked_unit(kind, [figure])
    return in_unit(figure, kind, unit) if kind is COUNT else f"{in_unit(figure, kind, unit)} {unit}"
