"""Names and signatures beside a table of the standard, and what the program lacks."""
from __future__ import annotations

import inspect
import os
import unittest

from .support import HERE, Case, cengmoat, np, xp

CONSTANTS = {"e", "inf", "nan", "newaxis", "pi"}
DATA_TYPES = {"bool", "int8", "int16", "int32", "int64", "uint8", "uint16", "uint32", "uint64", "float32", "float64", "complex64",
              "complex128"}
# What a function has beside the standard's parameters.
# Functions of the standard 2023.12.
LATER = {"maximum", "minimum", "clip", "cumulative_sum"}
OWN = {"chunks", "options"}
FLOATS_ONE = "acos acosh asin asinh atan atanh conj cos cosh exp expm1 imag log log1p log2 log10 real sin sinh sqrt tan tanh mean std var"
METHODS = """__abs__ __add__ __and__ __array_namespace__ __bool__ __complex__ __eq__ __float__ __floordiv__ __ge__ __getitem__ __gt__ __index__
__int__ __invert__ __le__ __lshift__ __lt__ __matmul__ __mod__ __mul__ __ne__ __neg__ __or__ __pos__ __pow__ __rshift__ __sub__ __truediv__
__xor__ __radd__ __rand__ __rfloordiv__ __rlshift__ __rmatmul__ __rmod__ __rmul__ __ror__ __rpow__ __rrshift__ __rsub__ __rtruediv__ __rxor__
to_device dtype device mT ndim shape size T"""


def table() -> dict[str, str]:
    with open(os.path.join(HERE, "standard_2022_12.txt"), encoding="utf-8") as file:
        lines = [line.strip() for line in file if line.strip() and not line.startswith("#")]
    return {line.partition("(")[0]: line[line.index("("):] for line in lines}


def signature(function: object) -> str:
    """Return a function's signature without annotations and without what is its own."""
    found = inspect.signature(function)  # type: ignore[arg-type]
    kept = [it.replace(annotation=inspect.Parameter.empty) for it in found.parameters.values() if it.name not in OWN]
    return str(inspect.Signature(kept))


class Standard(Case):
    def test_names(self) -> None:
        self.assertEqual(set(xp.__all__), set(table()) | CONSTANTS | DATA_TYPES | LATER)
        self.assertEqual([name for name in xp.__all__ if not hasattr(xp, name)], [])

    def test_signatures(self) -> None:
        for name, wanted in table().items():
            self.assertEqual(signature(getattr(xp, name)), wanted, name)

    def test_own_parameters_are_by_name_alone(self) -> None:
        for name in table():
            for it in inspect.signature(getattr(xp, name)).parameters.values():
                if it.name in OWN and it.kind != inspect.Parameter.VAR_KEYWORD:
                    self.assertEqual((it.kind, it.default), (inspect.Parameter.KEYWORD_ONLY, None), name)

    def test_methods(self) -> None:
        self.assertEqual([name for name in METHODS.split() if not hasattr(cengmoat.Array, name)], [])

    def test_each_function_has_a_text(self) -> None:
        self.assertEqual([name for name in table() if not getattr(xp, name).__doc__], [])

    def test_namespace_of_an_array(self) -> None:
        x = xp.arange(3)
        self.assertIs(x.__array_namespace__(), xp)
        self.assertIs(x.__array_namespace__(api_version="2022.12"), xp)
        self.assertRaises(ValueError, x.__array_namespace__, api_version="2035.01")

    def test_what_the_program_lacks(self) -> None:
        x, condition = xp.arange(3), xp.zeros(3, dtype="bool")
        calls = [lambda name=name: getattr(xp, name)(x) for name in FLOATS_ONE.split()]
        calls += [lambda name=name: getattr(xp, name)(x) for name in ("nonzero", "unique_all", "unique_counts", "unique_inverse",
                                                                      "unique_values", "sort", "argsort", "from_dlpack")]
        calls += [lambda name=name: getattr(xp, name)(x, x) for name in ("atan2", "divide", "logaddexp", "pow", "take")]
        calls += [lambda: x / 2, lambda: 2 / x, lambda: x ** 2, lambda: 2 ** x, lambda: x[condition], lambda: xp.linspace(0, 1, 5),
                  lambda: xp.finfo("float32"), lambda: xp.zeros(3), lambda: xp.ones(3), lambda: xp.empty(3), lambda: xp.eye(3),
                  lambda: xp.zeros(3, dtype="float64"), lambda: x.astype(xp.float32), lambda: xp.full(3, 0.5),
                  lambda: xp.arange(0, 1, 0.5), lambda: xp.asarray([0.5]), lambda: xp.astype(x, "complex64"),
                  lambda: xp.sum(x, dtype="float64")]
        for number, call in enumerate(calls):
            with self.assertRaises(NotImplementedError, msg=number) as found:
                call()
            self.assertEqual(str(found.exception).strip(".").count(". "), 0, found.exception)
            self.assertGreater(len(str(found.exception)), 20)
        for places in ([0, 0], np.array([0, 2, 1]), np.array([True, True, False, True])):
            self.assertRaises(NotImplementedError, xp.arange(4).__getitem__, places)

    def test_devices(self) -> None:
        x = xp.arange(3, device="cpu")
        self.assertEqual(x.device, "cpu")
        self.assertIs(x.to_device("cpu"), x)
        self.assertRaises(ValueError, x.to_device, "gpu")
        self.assertRaises(ValueError, xp.zeros, 3, dtype="int8", device="gpu")


if __name__ == "__main__":
    unittest.main()
