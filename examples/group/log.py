"""The log of a process: one JSON object a line."""
from __future__ import annotations

import datetime
import json
import sys
from typing import TextIO


class Log:
    def __init__(self, name: str, stream: TextIO = sys.stdout) -> None:
        self._name, self._stream = name, stream

    def say(self, what: str, **more: object) -> None:
        at = datetime.datetime.now(datetime.timezone.utc).isoformat(timespec="milliseconds")
        self._stream.write(json.dumps({"at": at, "who": self._name, "what": what, **more}) + "\n")
        self._stream.flush()
