"""Gaussian integers: whole numbers a + bi of any size, and arrays of them.

The engine's numbers are exact, so nothing here goes through floating point: a complex number of
NumPy holds whole parts exactly only up to 2^53.
"""

from __future__ import annotations

import numbers
from typing import Any, Optional, Tuple, Union

import numpy as np
from numpy.typing import NDArray

from .errors import NotWhole

Whole = Union[int, "Gaussian"]
"""What stands for one exact number: a Python int or a Gaussian integer."""

INT64 = (-(2**63), 2**63 - 1)
DOUBLE = 2**53
"""Whole numbers up to this size are doubles, each of them."""


class Gaussian:
    """The number ``re + im i`` with whole parts of any size.

    It adds, multiplies and compares with Python's ints and with its own kind, exactly.
    ``complex(z)`` rounds to double precision; ``int(z)`` refuses a number that isn't real.

    >>> Gaussian(2, 1) * Gaussian(0, 1)
    Gaussian(-1, 2)
    """

    __slots__ = ("re", "im")
    re: int
    im: int

    def __init__(self, re: int, im: int = 0) -> None:
        object.__setattr__(self, "re", int(re))
        object.__setattr__(self, "im", int(im))

    def __setattr__(self, name: str, value: Any) -> None:
        raise AttributeError("a Gaussian integer doesn't change")

    def __reduce__(self) -> Tuple[Any, ...]:
        return type(self), (self.re, self.im)

    def conjugate(self) -> "Gaussian":
        """The complex conjugate."""
        return Gaussian(self.re, -self.im)

    @property
    def magnitude(self) -> int:
        """``|re| + |im|``, the size by which the engine keeps its range."""
        return abs(self.re) + abs(self.im)

    def __add__(self, other: Any) -> "Gaussian":
        other = _operand(other)
        if other is None:
            return NotImplemented
        return Gaussian(self.re + other.re, self.im + other.im)

    __radd__ = __add__

    def __neg__(self) -> "Gaussian":
        return Gaussian(-self.re, -self.im)

    def __sub__(self, other: Any) -> "Gaussian":
        other = _operand(other)
        if other is None:
            return NotImplemented
        return Gaussian(self.re - other.re, self.im - other.im)

    def __rsub__(self, other: Any) -> "Gaussian":
        return (-self).__add__(other)

    def __mul__(self, other: Any) -> "Gaussian":
        other = _operand(other)
        if other is None:
            return NotImplemented
        return Gaussian(self.re * other.re - self.im * other.im, self.re * other.im + self.im * other.re)

    __rmul__ = __mul__

    def __eq__(self, other: Any) -> bool:
        if isinstance(other, Gaussian):
            return self.re == other.re and self.im == other.im
        if isinstance(other, numbers.Complex):
            return bool(self.re == other.real and self.im == other.imag)
        return NotImplemented

    def __hash__(self) -> int:
        if self.im == 0:
            return hash(self.re)
        try:
            rounded = complex(self)
        except OverflowError:
            return hash((self.re, self.im))
        return hash(rounded) if self == rounded else hash((self.re, self.im))

    def __bool__(self) -> bool:
        return bool(self.re or self.im)

    def __complex__(self) -> complex:
        return complex(float(self.re), float(self.im))

    def __int__(self) -> int:
        if self.im:
            raise TypeError(f"{self} isn't real")
        return self.re

    def __float__(self) -> float:
        return float(int(self))

    def __abs__(self) -> float:
        return abs(complex(self))

    def __repr__(self) -> str:
        return f"Gaussian({self.re}, {self.im})"

    def __str__(self) -> str:
        if self.im == 0:
            return str(self.re)
        imaginary = {1: "i", -1: "-i"}.get(self.im, f"{self.im}i")
        if self.re == 0:
            return imaginary
        return f"{self.re}{'' if self.im < 0 else '+'}{imaginary}"


def _operand(value: Any) -> Optional[Gaussian]:
    if isinstance(value, Gaussian):
        return value
    if isinstance(value, numbers.Integral):
        return Gaussian(int(value))
    return None


def gaussian(value: Any, place: Any = None) -> Gaussian:
    """One number as a Gaussian integer.

    Takes ints of Python and NumPy, Gaussian integers, and floats and complex numbers with whole parts.
    Raises `NotWhole` for anything else; `place` then says where it stood.
    """
    if isinstance(value, Gaussian):
        return value
    if isinstance(value, numbers.Integral):
        return Gaussian(int(value))
    if isinstance(value, numbers.Complex):
        real, imaginary = value.real, value.imag
        if np.isfinite(real) and np.isfinite(imaginary) and real == int(real) and imaginary == int(imaginary):
            return Gaussian(int(real), int(imaginary))
    raise NotWhole(value, place)


def parts_of(array: NDArray[Any]) -> Tuple[NDArray[Any], NDArray[Any]]:
    """The real and the imaginary parts of an array as two arrays of whole numbers of the same shape.

    Their type is int64 where all parts fit, and `object` with Python ints else. Raises `NotWhole`
    with the place of the first entry, row by row, that isn't a Gaussian integer.
    """
    kind = array.dtype.kind
    if kind in "bi":
        return array.astype(np.int64), np.zeros(array.shape, np.int64)
    if kind == "u":
        return _fitted(array.astype(object)), np.zeros(array.shape, np.int64)
    if kind in "fc":
        return _float_parts(array)
    if kind == "O":
        real = np.empty(array.shape, object)
        imaginary = np.empty(array.shape, object)
        for place, value in np.ndenumerate(array):
            number = gaussian(value, place)
            real[place], imaginary[place] = number.re, number.im
        return _fitted(real), _fitted(imaginary)
    raise TypeError(f"an array of {array.dtype} has no numbers")


def _float_parts(array: NDArray[Any]) -> Tuple[NDArray[Any], NDArray[Any]]:
    real, imaginary = array.real, array.imag
    with np.errstate(invalid="ignore"):
        whole = np.isfinite(real) & np.isfinite(imaginary) & (real == np.rint(real)) & (imaginary == np.rint(imaginary))
    if not whole.all():
        place = tuple(int(i) for i in np.argwhere(~whole)[0])
        raise NotWhole(array[place], place)
    small = bool((abs(real) < 2.0**62).all() and (abs(imaginary) < 2.0**62).all())
    if small:
        return real.astype(np.int64), imaginary.astype(np.int64)
    exact = np.frompyfunc(int, 1, 1)
    return _objects(exact(real)), _objects(exact(imaginary))


def _objects(values: Any) -> NDArray[Any]:
    return np.asarray(values, dtype=object)


def _fitted(values: NDArray[Any]) -> NDArray[Any]:
    """The same whole numbers as int64 where all fit."""
    low, high = INT64
    flat = values.ravel()
    if all(low <= value <= high for value in flat):
        return values.astype(np.int64)
    return values


def joined(real: NDArray[Any], imaginary: NDArray[Any], dtype: Any = None) -> NDArray[Any]:
    """One array of real and imaginary parts.

    Without `dtype` the result is exact, and its type is the first of these that holds all entries:
    int64; `object` with Python ints, where all are real; complex128, where all parts are at most
    2^53 in size; `object` with `Gaussian`. With `dtype` each entry is turned into that type, which
    rounds for floats, and is refused where a real type would lose an imaginary part.
    """
    real_only = not np.any(imaginary)
    if dtype is None:
        if real_only:
            return real.copy()
        if _greatest(real) <= DOUBLE and _greatest(imaginary) <= DOUBLE:
            return real.astype(np.complex128) + 1j * imaginary.astype(np.complex128)
        dtype = object
    dtype = np.dtype(dtype)
    if dtype.kind == "c":
        whole = np.empty(real.shape, dtype)
        whole.real = _rounded(real)
        whole.imag = _rounded(imaginary)
        return whole
    if dtype == object:
        if real_only:
            return real.astype(object)
        return _objects(np.frompyfunc(Gaussian, 2, 1)(real, imaginary)).reshape(real.shape)
    if not real_only:
        raise TypeError(f"an array with imaginary parts isn't an array of {dtype}")
    if dtype.kind == "f":
        return _rounded(real).astype(dtype)
    low, high = np.iinfo(dtype).min, np.iinfo(dtype).max
    if real.size and (int(real.min()) < low or int(real.max()) > high):
        raise OverflowError(f"an entry is outside the range of {dtype}")
    return real.astype(dtype)


def _greatest(values: NDArray[Any]) -> int:
    return max(abs(int(values.min())), abs(int(values.max()))) if values.size else 0


def _rounded(values: NDArray[Any]) -> NDArray[Any]:
    """Whole numbers as doubles, each the nearest one."""
    return values.astype(np.float64)
