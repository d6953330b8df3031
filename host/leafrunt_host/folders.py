"""Where boxes keep their files, unless they are told otherwise."""
from __future__ import annotations

from pathlib import Path

RUN = Path("/run/leafrunt")
STATE = Path("/var/lib/leafrunt")
