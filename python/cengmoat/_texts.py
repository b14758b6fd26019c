"""What each answer of the program means and what to do about it, in the words of this package: its calls, and no word of a command."""
from __future__ import annotations

from typing import Any, Mapping, Optional

_WRONG_BUILD = "the program is perhaps of another version than the package: see Store.program"
_V2 = "version 2"
_REWRITE = "store it anew, as by store.save(new_name, array)"
_UNPACK = ("with a store of another folder, store.save(\"{name}\", zarr.open(..)[\"{name}\"]) stores it uncompressed, in its chunks and one of"
           " them at a time; .. is this folder")
_TYPES = "store it as an integer type or bool, as by numpy.round(x * 100).astype(\"int32\")"
_LIMITS = "more than six axes, 2^40 elements, 2^28 bytes in a chunk, or 65,536 chunks"

# By the number of the answer and its code (None where it has none): why it comes, and what to do.
TEXTS: dict[tuple[int, Optional[int]], tuple[str, str]] = {
    (2, 1): ("the program doesn't know a call of the package", _WRONG_BUILD),
    (2, 2): ("the program doesn't know an option of the package, or a folder's name isn't UTF-8", _WRONG_BUILD),
    (2, 3): ("a name isn't one", "a name has 1 to 32 letters, digits, _, - and ., and begins with a letter or a digit"),
    (3, 1): ("the program doesn't read the expression", _WRONG_BUILD),
    (3, 2): ("the program doesn't read the expression", _WRONG_BUILD),
    (3, 3): ("the program doesn't know a member of {node}, or its kind", _WRONG_BUILD),
    (3, 4): ("the program doesn't know the function of {node}", _WRONG_BUILD),
    (3, 5): ("{node} has too few or too many arguments, or one of another kind", _WRONG_BUILD),
    (3, 6): ("the program doesn't read the expression at {node}", _WRONG_BUILD),
    (3, 7): ("the expression has more than 256 different nodes, or its text more than 1,048,576 bytes",
             "compute a part of it by y = part.store(\"part\"), and go on with y"),
    (4, 1): ("the arguments of {node} have no common type: bool and an integer type, or uint64 and a signed one", "convert one with astype"),
    (4, 2): ("the shapes of the arguments of {node} don't broadcast, or don't fit", "compare their shapes"),
    (4, 3): ("an axis of {node} isn't one of the array, or stands twice", "an axis of an array of n axes is from -n to n-1"),
    (4, 4): ("{node} asks for the least or greatest of no elements", "see which axis has the size 0"),
    (4, 5): ("a number in {node} isn't one of the type that it meets", "convert the array to a wider type with astype, or take another number"),
    (4, 6): ("{node} doesn't take arrays of this type", "convert with astype; x != 0 makes truth values"),
    (4, 7): (f"{{node}}, or an argument of it in its chunks, has {_LIMITS}", "store the inputs in other chunks; see that no two arrays are"
             " stretched against each other by mistake"),
    (4, 8): ("{node} is a reshape to another count of elements", "take -1 for one size"),
    (4, 9): ("{node} has an index or a slice that the array hasn't", "an index is from -n to n-1 on an axis of size n"),
    (5, None): ("a task of {node} needs {need} bytes, and {allowed} are allowed",
                "Store(.., allowed_mem={need}) allows them (a later part may need more: x.plan() says so); or store the inputs in smaller chunks"),
    (6, 1): ("the plan has {count} tasks, and 65,536 are allowed", "store the inputs in larger chunks, or a part of the expression by itself"),
    (6, 2): ("the plan would store {count} chunks, those in between counted, and 262,144 are allowed",
             "take larger chunks, or store a part of the expression by itself"),
    (6, 3): ("a check compares at most 4,194,304 elements, those of all parts counted, and these are {count}",
             "check a part, as x[:100].check(..) of a stored part"),
    (7, 1): ("the metadata of {name} isn't a JSON object", _REWRITE),
    (7, 2): ("the zarr.json of {name} isn't that of an array of version 3, or is that of a group", "of a group take its folder as Store(folder)"),
    (7, 3): ("a member of the metadata of {name} is missing, or its attributes or dimension_names are wrong", _REWRITE),
    (7, 4): ("{name} has another type than integers and bool", _TYPES),
    (7, 5): (f"the shape or the chunk grid of {{name}} isn't read: it isn't regular, or has {_LIMITS}", "take other chunks"),
    (7, 6): ("the key encoding of {name} is neither default nor v2 with / or .", _REWRITE),
    (7, 7): ("the fill value of {name} isn't a number of its type", "store it with a fill value of the type, as 0"),
    (7, 8): ("{name} is compressed or sharded", _UNPACK),
    (7, 9): ("the metadata of {name} has an unknown member that must be understood", _REWRITE),
    (7, 10): ("the metadata of {name} is longer than 1,048,576 bytes", "store fewer attributes"),
    (7, 11): ("the type or the shape of {name} isn't that of the expression", "see whether the expression or the name is another one"),
    (7, 21): (f"the .zarray of {{name}}, of {_V2}, isn't a JSON object", _REWRITE),
    (7, 22): (f"the .zarray of {{name}} isn't that of {_V2}", _REWRITE),
    (7, 23): (f"a member of the .zarray of {{name}}, of {_V2}, is missing", _REWRITE),
    (7, 24): (f"{{name}}, of {_V2}, has another type than integers and bool", _TYPES),
    (7, 25): (f"the shape or the chunks of {{name}}, of {_V2}, aren't read: they have {_LIMITS}", "take other chunks"),
    (7, 26): (f"the separator of the keys of {{name}}, of {_V2}, is neither . nor /", _REWRITE),
    (7, 27): (f"the fill value of {{name}}, of {_V2}, isn't a number of its type", "store it with a fill value of the type, as 0, or none"),
    (7, 28): (f"{{name}}, of {_V2}, is compressed or filtered", _UNPACK),
    (7, 29): (f"the chunks of {{name}}, of {_V2}, are in column-major order", "store it once in the order C"),
    (7, 30): (f"the .zarray of {{name}}, of {_V2}, is longer than 1,048,576 bytes", _REWRITE),
    (8, None): ("there is no array {name!r}", "store.names() lists the names"),
    (9, None): ("{key} is there already", "x.store(.., resume=True) goes on with a run that stopped; store.remove(name) removes a result"
                " with its record; or take another name"),
    (10, None): ("a read or a write failed in each of its tries (task {task} of operation {op} of x.plan())",
                 "mend what hinders it, and x.store(.., resume=True) goes on"),
    (11, None): ("the program couldn't read what the package told it", "try again"),
    (12, None): ("the program's report couldn't be handed over; the result is stored", "store[name] takes it"),
    (13, None): ("the chunk file {key} has {got} bytes in place of {want}", "store the chunk again"),
    (14, None): ("the record of the result is that of another expression, of other inputs, or of other options",
                 "take the options of that run (allowed_mem, reserved_mem, split_every); or store.remove(name) removes the result"),
    (15, None): ("no run of this name has begun, or it is the name of an input", "x.store(name) begins one"),
    (16, None): ("the system refused to read, write or rename {key}, or a folder on its way, in each try", "mend what it names, and call again"),
    (17, None): ("the stored element at place {place} is {stored}, and the expression means {plain} there (places are counted row by row)",
                 "see by store.status() whether the array is finished, and what else wrote it; store it again under another name"),
    (18, None): ("an array that is given as a text isn't one", "store.save(name, array) stores an array of NumPy"),
    (20, None): ("a part isn't one of operation {op}, which has {tasks} tasks", _WRONG_BUILD),
    (21, None): ("task {task} of operation {op} lacks a chunk that it reads", "x.store(.., resume=True) goes on"),
    (70, None): ("the system had no memory to give", "take smaller chunks, fewer workers (Store(.., workers=1)), or free memory"),
}


class _Values(dict[str, Any]):
    """Values of a text; a field that isn't known stays as a word."""

    def __missing__(self, field: str) -> str:
        return field


def text_of(status: int, values: Mapping[str, Any]) -> tuple[str, str]:
    """Return why an answer comes, and what to do.

    Parameters
    ----------
    status : int
        The number of the answer.
    values : mapping
        Its fields by their names; that of `node` is the Python expression.
    """
    code = values.get("code", values.get("which"))
    found = TEXTS.get((status, code)) or TEXTS.get((status, None)) or (f"the program's answer is {status}", _WRONG_BUILD)
    told = _Values(values)
    return found[0].format_map(told), found[1].format_map(told)
