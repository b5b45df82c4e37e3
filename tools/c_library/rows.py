#!/usr/bin/env python3
"""Rows of the program's commands through the library: what bpf_host says of code and texts on a row, the library's answers must
say, too. Of `verify --explain` the verdict and the line `why:` are compared.

usage: tools/c_library/rows.py FILE ..      FILE: rows as those of crates/bpf_host/data, or .jsonl, with a case on each line: its
words, in, out and status. BPF_HOST_SANDBOX: the shared object. Rows of other commands, and of words that are no use of these, are
left out. A line is printed for each difference, and at last how many rows were compared."""
import json
import os
import sys

sys.path.insert(0, os.path.join(os.path.dirname(os.path.realpath(__file__)), "..", "..", "examples", "python"))
from bpf_host_sandbox import Map, Procedure, Refused, SandboxError, Status, assemble, disassemble  # noqa: E402

BLANK = " \t\r\n"


class Said(Exception):
    """What the program says where it ends early."""


def bytes_of(text, what="input not hex"):
    digits = "".join(it for it in text if it not in BLANK)
    if len(digits) % 2 or any(it not in "0123456789abcdefABCDEF" for it in digits):
        raise Said(what)
    return bytes.fromhex(digits)


def named(status):
    return "".join(part.capitalize() for part in Status(status).name.removeprefix("ASM_").split("_"))


def refusal(refused):
    return f"refused {int(refused.status)} {named(refused.status)} at {refused.at}"


def run_exec(words, given):
    code, args = bytes_of(given), bytes_of(words.get("--args", ""))
    if len(args) > 256:
        raise Said("args too long")
    procedure = Procedure(code, int(words.get("--profile", 1)))
    ended = procedure(Map(), args, int(words.get("--client", 16)))
    return f"accepted bound {procedure.bound}\nresult {ended.value}\nsteps {ended.steps}\nout {ended.output.hex() or '-'}\n"


def run_verify(words, given):
    return f"accepted bound {Procedure(bytes_of(given), int(words.get('--profile', 1))).bound}\n"


def run_asm(words, given):
    try:
        return assemble_text(given).hex() + "\n"
    except SandboxError as fault:
        if fault.status < Status.ASM_WORD:
            raise
        raise Said(f"line {fault.at} fault {fault.status - 40} {named(fault.status)}") from None


def assemble_text(given):
    return assemble(given.encode("latin-1"))


def run_disasm(words, given):
    return disassemble(bytes_of(given))


COMMANDS = {"exec": run_exec, "verify": run_verify, "asm": run_asm, "disasm": run_disasm}
OPTIONS = {"exec": ("--args", "--client", "--profile"), "verify": ("--profile", "--explain"), "asm": (), "disasm": ()}


def understood(words):
    """The options of a use of a command, by name; none where it is no use that is compared."""
    if not words or words[0] not in COMMANDS:
        return None
    options, rest = {}, list(words[1:])
    while rest:
        option = rest.pop(0)
        option, equals, value = option.partition("=")
        if option not in OPTIONS[words[0]] or option in options:
            return None
        if option != "--explain" and not equals:
            if not rest:
                return None
            value = rest.pop(0)
        options[option] = value
    numbers = [options.get(it, "1") for it in ("--client", "--profile")]
    if not all(it.isascii() and it.isdigit() and int(it) < 2**32 for it in numbers) or numbers[1] not in ("1", "2"):
        return None
    return options


def answered(command, options, given):
    """What the program would write, and its status, by the library's answers."""
    try:
        return COMMANDS[command](options, given), 0
    except Refused as refused:
        why = f"why: {refused.why}\n" if "--explain" in options and refused.why else ""
        return f"{refusal(refused)}\n{why}", 1
    except Said as said:
        return f"{said}\n", 1


def wanted_of(options, wanted):
    """Of an explanation, the verdict and why."""
    if "--explain" not in options:
        return wanted
    lines = wanted.splitlines(keepends=True)
    return "".join(lines[:1] + [it for it in lines[1:] if it.startswith("why: ")])


def cases_of(path):
    with open(path, encoding="utf-8", newline="\n") as lines:
        for number, line in enumerate(map(lambda it: it.rstrip("\n"), lines), 1):
            if path.endswith(".jsonl"):
                case = json.loads(line)
                yield number, case["words"], case["in"], case["status"], case["out"]
            elif line and not line.startswith("#"):
                words, given, status, out, *_ = (line.removesuffix(" |") + " | ").split(" | ")
                words = ["" if it == "-" else it for it in words.split()]
                yield number, words, given.replace("/", "\n"), int(status), out.replace("/", "\n")


def main(paths):
    compared = wrong = 0
    for path in paths:
        for number, words, given, status, out in cases_of(path):
            options = understood(words)
            if options is None or status == 2:
                continue
            compared += 1
            got = answered(words[0], options, given)
            if got != (wanted_of(options, out), status):
                wrong += 1
                print(f"{path}:{number}: {words}\n  want {status} {out[:300]!r}\n  got  {got[1]} {got[0][:300]!r}")
    print(f"rows: {compared} compared, {wrong} differ")
    return 1 if wrong or not compared else 0


if __name__ == "__main__":
    sys.exit(main(sys.argv[1:]))
