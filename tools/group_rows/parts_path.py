"""Where the parts of examples/group stand."""
import os
import sys
from pathlib import Path

_TOP = Path(__file__).resolve().parents[2]
sys.path[:0] = [str(_TOP / "examples/group"), str(_TOP / "examples/python")]
os.environ.setdefault("BPF_HOST_REPLICA", str(_TOP / "out/c-library/libbpf_host_replica.so"))
