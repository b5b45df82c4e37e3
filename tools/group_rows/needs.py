"""What groups of processes need of a machine: ZeroMQ for Python, and the library."""
from __future__ import annotations

import os
import subprocess
import sys
from pathlib import Path

TOP = Path(__file__).resolve().parents[2]
DEBIANS = "/usr/bin/python3"


def need_zmq(who: str) -> None:
    """Goes on in Debian's python where this one lacks ZeroMQ; ends with status 69 where that lacks it, too."""
    try:
        import zmq  # noqa: F401
    except ModuleNotFoundError:
        has = os.access(DEBIANS, os.X_OK) and subprocess.run([DEBIANS, "-c", "import zmq"], capture_output=True).returncode == 0
        if has and os.path.realpath(sys.executable) != os.path.realpath(DEBIANS):
            os.execv(DEBIANS, [DEBIANS, *sys.argv])
        _refuse(who, "the package python3-zmq")


def need_library(who: str) -> None:
    """Ends with status 69 where the library isn't built."""
    library = Path(os.environ.setdefault("BPF_HOST_REPLICA", str(TOP / "out/c-library/libbpf_host_replica.so")))
    if not library.is_file():
        _refuse(who, f"{library} (tools/c-library --build)")


def _refuse(who: str, what: str) -> None:
    print(f"group: {who} needs {what}, which isn't there: nothing was tried", file=sys.stderr)
    raise SystemExit(69)
