"""A program that ends with the process that started it: a killed Python leaves none that goes on."""
from __future__ import annotations

import ctypes
import os
import signal
from typing import Callable, Optional

_PR_SET_PDEATHSIG = 1
try:
    _prctl: Optional[Callable[..., int]] = ctypes.CDLL(None).prctl
except (OSError, AttributeError):
    _prctl = None


def dies_with_parent() -> Optional[Callable[[], None]]:
    """Return what a child calls before it becomes the program, so that the system kills it when its starter ends; None where none can.

    The thread that starts it must wait for its end, since the system goes by the thread.
    """
    if _prctl is None:
        return None
    call, parent = _prctl, os.getpid()
    words = [ctypes.c_ulong(it) for it in (signal.SIGKILL, 0, 0, 0)]

    def bind() -> None:
        call(_PR_SET_PDEATHSIG, *words)
        # (it may have ended before)
        if os.getppid() != parent:
            os.kill(os.getpid(), signal.SIGKILL)

    return bind
