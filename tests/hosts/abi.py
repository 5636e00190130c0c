"""What the package for Python declares of the library, a line for each fact, for tests/hosts/abi, which compares them with what C declares: by ctypes
the functions that it has asked the library for, and its structs; by the compiled module and by ctypes its numbers. The binding is found by
PYTHONPATH."""

import ctypes
import re

import elltree
from elltree import _library


def name_of(type_):
    """How a type of ctypes is told."""
    if type_ in (ctypes.c_void_p, ctypes.c_char_p):
        return "ptr"
    if type_ is ctypes.c_bool:
        return "bool"
    if issubclass(type_, ctypes.Structure):
        return "elltree" + re.sub("([A-Z])", r"_\1", type_.__name__).lower()
    if issubclass(type_, ctypes._Pointer):
        return f"ptr({name_of(type_._type_)})"
    return f"{'i' if type_(-1).value < 0 else 'u'}{8 * ctypes.sizeof(type_)}"


def facts_of_ctypes():
    from elltree import _functions

    for name, function in vars(_functions._loaded).items():
        if name.startswith("elltree_"):
            yield f"function {name} {name_of(function.restype)} ({', '.join(map(name_of, function.argtypes))})"
    for struct in vars(_functions).values():
        if isinstance(struct, type) and issubclass(struct, ctypes.Structure):
            yield f"struct {name_of(struct)} size {ctypes.sizeof(struct)}"
            for member, _ in struct._fields_:
                place = getattr(struct, member)
                yield f"struct {name_of(struct)}.{member} offset {place.offset} size {place.size}"
    yield f"value ELLTREE_TEXT_ROOM {_functions._TEXT_ROOM}"


def main():
    for code in elltree.Code:
        print(f"value ELLTREE_{code.name} {code.value}")
    print(f"value ELLTREE_KEY_MAX {elltree.KEY_MAX}")
    if _library.compiled is None:
        print(*facts_of_ctypes(), sep="\n")


main()
