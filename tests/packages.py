"""Has Debian's packages installed that tests want."""
import contextlib
import os
import subprocess
import time
from collections.abc import Iterable

SECONDS = 600
INSTALL = ["install", "-y", "-q", "--no-remove", "--no-install-recommends"]


def install(packages: Iterable[str]) -> None:
    """Installs these packages, if there are any and `CI=true` asks for it; one that can't be, or in whose place another would go, is left
    out."""
    missing, until = sorted(set(packages)), time.monotonic() + SECONDS
    if missing and os.environ.get("CI") == "true":
        apt(until, "update", "-q")
        if not apt(until, *INSTALL, *missing):
            for one in missing:
                apt(until, *INSTALL, one)


def apt(until: float, *words: str) -> bool:
    """Whether apt-get did that, by this moment."""
    quiet = {"stdin": subprocess.DEVNULL, "stdout": subprocess.DEVNULL, "stderr": subprocess.DEVNULL}
    with contextlib.suppress(subprocess.TimeoutExpired, OSError):
        return subprocess.run(["apt-get", *words], timeout=max(1.0, until - time.monotonic()), check=False, **quiet).returncode == 0
    return False
