"""Numbers in the registers of Modbus devices: the forms of a plan, their scale, and how they come to a value again."""

import struct
from decimal import Decimal
from fractions import Fraction
from typing import Any, Dict, List, NamedTuple, Optional, Tuple

# How many registers a form has, and the whole numbers that it holds.
REGISTERS = {"u16": 1, "i16": 1, "u32": 2, "i32": 2, "f32": 2}
BOUNDS = {"u16": (0, 0xFFFF), "i16": (-0x8000, 0x7FFF), "u32": (0, 0xFFFF_FFFF), "i32": (-0x8000_0000, 0x7FFF_FFFF)}
LARGEST, SMALLEST = 2**63 - 1, -2**63


def single(number: Fraction) -> int:
    """The bits of the binary32 that is nearest to a number, of two that are as near the even one (IEEE 754-2019, 4.3.1)."""
    near = bits_of(struct.pack(">f", number.numerator / number.denominator))
    # The quotient is rounded once to 53 bits and once to 24: the right bits are these or one of their neighbours.
    sign, size = near & 0x8000_0000, near & 0x7FFF_FFFF
    best = min((bits for bits in (size - 1, size, size + 1) if bits >= 0), key=lambda bits: (abs(of_bits(bits) - abs(number)), bits & 1))
    return best | sign if number else 0


def bits_of(data: bytes) -> int:
    return int.from_bytes(data, "big")


def of_bits(bits: int) -> Fraction:
    """The number of a binary32; of one that is none or has no end, 0."""
    number = struct.unpack(">f", bits.to_bytes(4, "big"))[0]
    return Fraction(number) if abs(number) <= 2.0**128 else Fraction(0)


class Scale(NamedTuple):
    """How a place has a point's values: in which form, and which number for which value."""
    form: str = "u16"
    is_low_first: bool = False
    times: int = 1
    per: int = 1
    offset: int = 0
    is_nearest: bool = False

    def registers(self) -> int:
        return REGISTERS[self.form]

    def number(self, value: int) -> Fraction:
        return Fraction(self.above(value), self.per)

    def above(self, value: int) -> int:
        return value * self.times + self.offset * self.per

    def whole(self, value: int) -> int:
        """The whole number that a value comes to."""
        above = self.above(value)
        return (2 * above + self.per) // (2 * self.per) if self.is_nearest else above // self.per

    def fits(self, value: int) -> bool:
        """Whether a value has a form."""
        if not SMALLEST <= self.above(value) <= LARGEST:
            return False
        if self.form == "f32":
            return True
        least, most = BOUNDS[self.form]
        return least <= self.whole(value) <= most

    def words(self, value: int) -> List[int]:
        """The registers of a value that fits."""
        bits = single(self.number(value)) if self.form == "f32" else self.whole(value) % 2 ** (16 * self.registers())
        if self.registers() == 1:
            return [bits]
        halves = [bits >> 16, bits & 0xFFFF]
        return halves[::-1] if self.is_low_first else halves

    def told(self, words: List[int]) -> Fraction:
        """The number that registers hold."""
        halves = words[::-1] if self.is_low_first and len(words) == 2 else words
        bits = bits_of(b"".join(word.to_bytes(2, "big") for word in halves))
        if self.form == "f32":
            return of_bits(bits)
        least = BOUNDS[self.form][0]
        return Fraction(bits - 2 ** (16 * len(words)) if least < 0 and bits > BOUNDS[self.form][1] else bits)

    def value(self, words: List[int]) -> int:
        """The value nearest to the one that registers hold."""
        return round((self.told(words) - self.offset) * self.per / self.times)

    def shown(self, words: List[int]) -> str:
        """The number that registers hold, as a person reads it."""
        number = self.told(words)
        if self.form != "f32":
            return str(number)
        # The shortest decimal that is nearest to this binary32 and no other.
        tries = (Decimal(f"{float(number):.{digits}g}") for digits in range(1, 18))
        return f"{next(it for it in tries if single(Fraction(it)) == single(number)):f}"


def scale_of(place: Dict[str, Any]) -> Scale:
    """The scale of a plan's table in which nothing is wrong."""
    return Scale(place.get("type", "u16"), place.get("first") == "low", place.get("times", 1), place.get("per", 1), place.get("offset", 0),
                 place.get("round") == "nearest")


def ends(point: Dict[str, Any]) -> Optional[Tuple[int, int]]:
    """The least and the greatest value of a catalogue's point, where its table says them."""
    least, most = {"analog": (point.get("min"), point.get("max")), "binary": (0, 1), "multi": (1, point.get("states"))}.get(
        str(point.get("kind")), (None, None))
    return (least, most) if isinstance(least, int) and isinstance(most, int) else None
