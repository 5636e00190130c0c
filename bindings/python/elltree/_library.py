"""The library, as one of two modules offers it, by the same names: the compiled one, _elltree, if it is there, and else _functions, by ctypes.

ELLTREE_PURE has the second be taken, if it is not empty, and so has ELLTREE_LIBRARY, which says where that finds the library.
"""

from __future__ import annotations

import os
from types import ModuleType
from typing import TYPE_CHECKING

from ._codes import answer


def _find_compiled() -> ModuleType | None:
    """Returns the compiled module, or None if it is not to be taken, or is not here or for another Python."""
    if os.environ.get("ELLTREE_PURE") or os.environ.get("ELLTREE_LIBRARY"):
        return None
    try:
        from . import _elltree
    except ImportError:
        return None
    return _elltree


compiled = _find_compiled()
if TYPE_CHECKING or compiled is None:
    from ._functions import HandleCore, MapCore, code_text
else:
    HandleCore, MapCore, code_text = compiled.HandleCore, compiled.MapCore, compiled.code_text
    # What raises the exceptions of codes.
    HandleCore.answer = MapCore.answer = staticmethod(answer)

__all__ = ["HandleCore", "MapCore", "code_text", "compiled"]
