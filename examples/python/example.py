"""The sandbox from Python: a procedure of examples/procedures runs over a map, and code that is refused says why.

    tools/c-library && BPF_HOST_SANDBOX=out/c-library/libbpf_host_sandbox.so python3 examples/python/example.py"""
import pathlib

from bpf_host_sandbox import Map, Procedure, Refused, SandboxError, assemble, disassemble

PROCEDURES = pathlib.Path(__file__).resolve().parents[1] / "procedures"


def number(value: int) -> bytes:
    return value.to_bytes(8, "little")


def main() -> None:
    counter = Procedure(bytes.fromhex((PROCEDURES / "counter.hex").read_text()))
    print(f"accepted: at most {counter.bound} steps")
    counts = Map()
    for name, amount in (7, 5), (7, 6), (8, 1):
        ended = counter(counts, number(name) + number(amount))
        print(f"counter {name} + {amount}: result {ended.value}, now {int.from_bytes(ended.output, 'little')}")
    for key, value in counts.items():
        print(f"{key.hex()} = {value[:8].hex()}")
    key = next(iter(counts))
    del counts[key]
    print(f"{len(counts)} entry is left; the other is there: {key in counts}")

    for text in ("mov64 r0, r3\nexit", "ldxb r0, [r1+256]\nexit", "mov64 r0, 0\nja -2"):
        try:
            Procedure(assemble(text), profile=2)
        except Refused as refused:
            print(f"refused: {refused}")
    for text in ("exit\nadd64 r0", "ja nowhere"):
        try:
            assemble(text)
        except SandboxError as fault:
            print(f"no text of the assembler: {fault}")
    print(disassemble(assemble("lddw r0, 4294967296\nexit")), end="")


if __name__ == "__main__":
    main()
