"""Lazy arrays: an expression over stored arrays, of which type, shape and chunks are known without running."""
from __future__ import annotations

from types import ModuleType
from typing import TYPE_CHECKING, Any, Iterator, Literal, Mapping, Optional, Union, overload

from . import _build as build, _missing as missing, _taking as taking, _views as views
from ._collection import Collection
from ._dtypes import DType, NDArray, as_dtype, as_literal
from ._labels import labels_of
from ._lines import refuse_groups
from ._operators import Operators
from ._refused import Refused
from ._shapes import ChunksLike, Shape, numblocks, one_axis, product, some_axes
from ._show import array_html, array_text

if TYPE_CHECKING:
    from ._plans import Plan
    from ._store import Store

API_VERSIONS = ("2021.12", "2022.12")


class Array(Refused, Collection, Operators):
    """An array that isn't computed yet.

    It is made by a `Store`, by `from_zarr`, by the functions of `cengmoat.array_api`, and by operators on such arrays.
    Nothing is computed before `store`, `compute`, `check`, `bool()`, `int()` or `numpy.asarray()`.

    Parameters
    ----------
    node : Node
        The expression.
    """

    __slots__ = ()

    # What is known without running

    @property
    def dtype(self) -> DType:
        """The type of the elements."""
        return self.node.dtype

    @property
    def shape(self) -> Shape:
        """The size of each axis, in elements."""
        return self.node.shape

    @property
    def chunksize(self) -> Shape:
        """The size of a chunk on each axis, in elements."""
        return self.node.chunks

    @property
    def chunks(self) -> tuple[Shape, ...]:
        """The size of each chunk along each axis, as Dask and xarray have it; all but the last are `chunksize`."""
        return tuple(tuple(min(side, size - start) for start in range(0, size, side)) or (0,) for size, side in zip(self.shape, self.chunksize))

    @property
    def dims(self) -> Optional[tuple[str, ...]]:
        """The names of the axes, where the stored arrays name them all; so xarray.DataArray(x) has them too."""
        names = [name for name in labels_of(self.node)[0] if name is not None]
        return tuple(names) if len(set(names)) == self.ndim and names else None

    @property
    def attrs(self) -> dict[str, Any]:
        """The attributes that come from the stored arrays."""
        return labels_of(self.node)[1]

    @property
    def numblocks(self) -> Shape:
        """The count of chunks on each axis."""
        return numblocks(self.shape, self.chunksize)

    @property
    def ndim(self) -> int:
        """The count of axes."""
        return len(self.shape)

    @property
    def size(self) -> int:
        """The count of elements."""
        return product(self.shape)

    @property
    def itemsize(self) -> int:
        """The bytes of an element."""
        return self.dtype.itemsize

    @property
    def nbytes(self) -> int:
        """The bytes of all elements."""
        return self.size * self.dtype.itemsize

    @property
    def device(self) -> str:
        """The device, as the standard has it: there is one."""
        return "cpu"

    @property
    def T(self) -> Array:
        """The matrix with its axes exchanged; a ValueError where there aren't two axes."""
        if self.ndim != 2:
            raise ValueError(f"T is of arrays of two axes, and not of shape {self.shape}: see mT and permute_dims")
        return Array(views.permute_dims(self.node, (1, 0)))

    @property
    def mT(self) -> Array:
        """The array with its last two axes exchanged; a ValueError where there are fewer."""
        if self.ndim < 2:
            raise ValueError(f"mT is of arrays of two axes or more, and not of shape {self.shape}")
        return Array(views.permute_dims(self.node, (*range(self.ndim - 2), self.ndim - 1, self.ndim - 2)))

    def __repr__(self) -> str:
        return array_text(self.node)

    def _repr_html_(self) -> str:
        return array_html(self.node)

    def __len__(self) -> int:
        if not self.shape:
            raise TypeError("an array without an axis has no len()")
        return self.shape[0]

    def __iter__(self) -> Iterator[Array]:
        if not self.shape:
            raise TypeError("an array without an axis has no elements to go over")
        return (self[at] for at in range(self.shape[0]))

    def __array_namespace__(self, *, api_version: Optional[str] = None) -> ModuleType:
        """Return the namespace of the array API standard; a ValueError for a version that isn't known."""
        if api_version is not None and api_version not in API_VERSIONS:
            raise ValueError(f"api_version {api_version!r} isn't one of {', '.join(API_VERSIONS)}")
        from . import array_api
        return array_api

    def to_device(self, device: str, /, *, stream: Any = None) -> Array:
        """Return the array: there is one device."""
        if device != "cpu" or stream is not None:
            raise ValueError(f"there is the device 'cpu' alone, and not {device!r}, and no stream")
        return self

    # Views

    def __getitem__(self, key: Any) -> Array:
        refuse_groups()
        return Array(views.index(self.node, key))

    @overload
    def astype(self, dtype: Any, order: Literal["K", "A"] = "K", casting: str = "unsafe", subok: bool = True, copy: bool = True) -> Array: ...

    @overload
    def astype(self, dtype: Any, order: Literal["C", "F"], casting: str = "unsafe", subok: bool = True, copy: bool = True) -> NDArray: ...

    def astype(self, dtype: Any, order: Literal["K", "A", "C", "F"] = "K", casting: str = "unsafe", subok: bool = True,
               copy: bool = True) -> Union[Array, NDArray]:
        """Return the array in another type: each number is wrapped to it, and 0 becomes false and all else true.

        The other parameters are NumPy's. An order "C" or "F" is one of an array in memory, as zarr wants a chunk that it writes:
        then the array is computed. `casting` is "unsafe".
        """
        if casting != "unsafe":
            raise TypeError(f"astype wraps each number, which is casting='unsafe', and not {casting!r}")
        if order in ("C", "F"):
            return self.compute().astype(as_dtype(dtype), order)
        return Array(build.astype(self.node, as_dtype(dtype)))

    def rechunk(self, chunks: ChunksLike) -> Array:
        """Return the array in other chunks: a size for all axes, one for each, or a mapping; -1 means the whole axis.

        The sizes of all chunks of an axis are taken too, as `chunks` has them, if all but the last are alike.
        """
        return Array(views.rechunk(self.node, chunks))

    def reshape(self, *shape: Any) -> Array:
        """Return the same elements, row by row, in another shape, of which one size may be -1."""
        return Array(views.reshape(self.node, shape[0] if len(shape) == 1 else shape))

    def transpose(self, axes: Optional[tuple[int, ...]] = None) -> Array:
        """Return the array with its axes in another order, the opposite one where none is given."""
        return Array(views.permute_dims(self.node, tuple(range(self.ndim))[::-1] if axes is None else axes))

    def ravel(self) -> Array:
        """Return the elements, row by row, along one axis."""
        return self.reshape(-1)

    flatten = ravel

    def squeeze(self, axis: Any = None) -> Array:
        """Return the array without axes of size 1, of which a ValueError says where one has another size; all where none is given."""
        ones = tuple(at for at, size in enumerate(self.shape) if size == 1)
        return Array(views.squeeze(self.node, ones if axis is None else axis))

    def expand_dims(self, axis: Any) -> Array:
        """Return the array with axes of size 1 put in, at their places in the result."""
        axes = axis if isinstance(axis, (tuple, list)) else (axis,)
        ndim, node = self.ndim + len(axes), self.node
        for at in sorted(some_axes(tuple(axes), ndim)):
            node = views.expand_dims(node, at)
        return Array(node)

    def swapaxes(self, axis1: int, axis2: int) -> Array:
        """Return the array with two axes exchanged."""
        order = list(range(self.ndim))
        one, other = one_axis(axis1, self.ndim), one_axis(axis2, self.ndim)
        order[one], order[other] = order[other], order[one]
        return Array(views.permute_dims(self.node, tuple(order)))

    def clip(self, min: Any = None, max: Any = None) -> Array:
        """Return the lesser of `max` and the greater of `min` and each element; None is no bound."""
        from .array_api import clip
        return clip(self, min, max)

    def take(self, indices: Any, axis: Optional[int] = None, out: None = None, mode: str = "raise") -> Array:
        """Return the elements at some places along an axis, or row by row where none is given: places at equal distances alone."""
        if out is not None or mode != "raise":
            raise TypeError(f"take: an array isn't changed, so out is None, and mode is 'raise', and not {mode!r}")
        return Array(taking.take(self.node, indices, axis))

    def is_missing(self) -> Array:
        """Return whether each element stands for nothing, as the attributes `_FillValue` and `missing_value` say."""
        return Array(missing.is_missing(self.node))

    def fill_missing(self, value: int) -> Array:
        """Return the array with a number in place of what is missing; a ValueError where the number isn't one of the type."""
        return Array(missing.fill_missing(self.node, as_literal(value)))

    def cumsum(self, axis: Optional[int] = None, dtype: Any = None, out: None = None) -> Array:
        """Return the sums from the first element to each, along an axis, or row by row where none is given."""
        if out is not None:
            raise TypeError("cumsum: an array isn't changed, so out is None")
        from .array_api import cumulative_sum
        return cumulative_sum(self if axis is not None else self.ravel(), axis=0 if axis is None else axis, dtype=dtype)

    def copy(self) -> Array:
        """Return the array: it is never changed."""
        return self

    def tolist(self) -> Any:
        """Compute the array and return it as lists."""
        return self.compute().tolist()

    # Reductions. NumPy's own functions call these methods, and hand over `out=None`.

    def sum(self, axis: Any = None, *, dtype: Any = None, keepdims: bool = False, out: None = None) -> Array:
        """Return the sum over axes, int64 or uint64 where no type is given, wrapped once."""
        return self._total("sum", axis, dtype, keepdims, out)

    def prod(self, axis: Any = None, *, dtype: Any = None, keepdims: bool = False, out: None = None) -> Array:
        """Return the product over axes, int64 or uint64 where no type is given, wrapped once."""
        return self._total("prod", axis, dtype, keepdims, out)

    def _total(self, op: str, axis: Any, dtype: Any, keepdims: bool, out: None) -> Array:
        wanted = None if dtype is None else as_dtype(dtype)
        if wanted is not None and wanted.kind == "b":
            raise TypeError(f"{op} gives integers, and not bool")
        # (truth values are counted, as NumPy counts them)
        numbers = self.astype("int8") if self.dtype.kind == "b" else self
        found = numbers._reduced(op, axis, keepdims, out)
        return found if wanted is None else found.astype(wanted)

    def _reduced(self, op: str, axis: Any, keepdims: bool, out: None) -> Array:
        if out is not None:
            raise TypeError(f"{op}: an array isn't changed, so out is None")
        if op in ("argmin", "argmax"):
            return Array(build.search(op, self.node, axis, keepdims))
        return Array(build.reduction(op, self.node, axis, keepdims))

    def min(self, axis: Any = None, *, keepdims: bool = False, out: None = None) -> Array:
        """Return the least over axes."""
        return self._reduced("min", axis, keepdims, out)

    def max(self, axis: Any = None, *, keepdims: bool = False, out: None = None) -> Array:
        """Return the greatest over axes."""
        return self._reduced("max", axis, keepdims, out)

    def any(self, axis: Any = None, *, keepdims: bool = False, out: None = None) -> Array:
        """Return whether an element over axes isn't 0."""
        return self._reduced("any", axis, keepdims, out)

    def all(self, axis: Any = None, *, keepdims: bool = False, out: None = None) -> Array:
        """Return whether no element over axes is 0."""
        return self._reduced("all", axis, keepdims, out)

    def argmin(self, axis: Optional[int] = None, *, keepdims: bool = False, out: None = None) -> Array:
        """Return the first place of the least along an axis, or in the whole array row by row."""
        return self._reduced("argmin", axis, keepdims, out)

    def argmax(self, axis: Optional[int] = None, *, keepdims: bool = False, out: None = None) -> Array:
        """Return the first place of the greatest along an axis, or in the whole array row by row."""
        return self._reduced("argmax", axis, keepdims, out)

    # Running

    def compute(self, *, store: Optional[Store] = None, progress: Optional[bool] = None, explain: bool = False) -> NDArray:
        """Compute the array and return it; `explain` prints its plan before. See `cengmoat.compute`."""
        from ._running import compute_node
        return compute_node(self.node, store, progress, explain)

    def store(self, name: str, into: Optional[Store] = None, *, progress: Optional[bool] = None, resume: bool = False,
              keep: bool = False, explain: bool = False, executor: Any = None, paths: Optional[Mapping[str, str]] = None,
              overwrite: bool = False) -> Array:
        """Compute the array, store it under a name, and return it as a stored array; see `cengmoat.to_zarr`."""
        from ._running import store_node
        return Array(store_node(self.node, name, into, progress, resume, keep, explain,
                                executor, paths, overwrite))

    def check(self, name: str, *, store: Optional[Store] = None) -> int:
        """Compare the stored array of a name with what this expression means, and return the count of its elements.

        Raises
        ------
        Unequal
            At the first element that differs.
        """
        from ._running import check_node
        return check_node(self.node, name, store)

    def plan(self, *, store: Optional[Store] = None) -> Plan:
        """Return the operations by which the array would be computed, with their tasks, memory and bytes."""
        from ._running import plan_node
        return plan_node(self.node, store)

    def to_dask(self) -> Any:
        """Return an array of Dask with the same chunks, for what floats alone can do, as `x.to_dask().mean()`.

        Its chunks are arrays of NumPy. Those of a stored array are read one by one; each of those of an expression is a run of its own.
        An ImportError where Dask isn't installed.
        """
        from ._dask import to_dask
        return to_dask(self)

    def __array__(self, dtype: Any = None, copy: Optional[bool] = None) -> NDArray:
        found = self.compute()
        return found if dtype is None else found.astype(dtype)

    def item(self) -> Any:
        """Compute an array of one element and return it as an integer or a truth value of Python."""
        return self._one().item()

    def _one(self) -> Any:
        if self.size != 1:
            raise ValueError(f"an array of shape {self.shape} has no one value: see any, all and compute")
        return self.compute().reshape(())[()]

    def __bool__(self) -> bool:
        return bool(self._one())

    def __int__(self) -> int:
        return int(self._one())

    def __float__(self) -> float:
        return float(self._one())

    def __complex__(self) -> complex:
        return complex(self._one())

    def __index__(self) -> int:
        if self.ndim or self.dtype.kind == "b":
            raise TypeError(f"an array of {self.dtype} and shape {self.shape} is no index")
        return int(self._one())
