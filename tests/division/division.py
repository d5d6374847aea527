"""Finds divisions: in the machine code of the library and of programs, and in the code of crates/.

A controller that traps divisions can run the library only if no instruction of it divides and nothing that it calls
may. So every instruction that divides is a fault, and so is every name that it takes from elsewhere but those of
OUTSIDE; a program may take those of STARTED too. In the code a quotient or a remainder is a fault unless KEPT has it
for its crate: the compiler turns those by a power of two into shifts, and those by another constant into a product.
"""

import pathlib
import re
import subprocess
import sys

ROOT = pathlib.Path(__file__).resolve().parents[2]

# whole numbers, floats and vectors of them; remainders of the old float unit; digits of a byte
DIVIDES = re.compile(r"(v|f|fi)?i?div\w*|fprem1?|aam")
PREFIX = re.compile(r"(?:(?:lock|rep\w*|bnd|notrack|data16|cs|ds|es|fs|gs|ss) )*")
FUNCTION = re.compile(r"[0-9a-f]+ <(.+)>:")
INSTRUCTION = re.compile(r" *[0-9a-f]+:\t(.+)")

# what a compiler calls for a quotient or a remainder
HELPER = re.compile(r"_*(u|s|i)?(div|mod|divmod)([a-z]{2}[34])?|l{0,2}div|imaxdiv|fmodf?|remainderf?|__aeabi_\w*div\w*")
OUTSIDE = {"memcpy", "memset"}

# what a program takes besides: its start and its end, the processor that it asks for, input and output, and the words
# of an error of these
STARTED = {"__libc_start_main", "__cxa_finalize", "__gmon_start__", "__x86_get_cpuid_feature_leaf", "__sysv_signal"}
STARTED |= {"_ITM_registerTMCloneTable", "_ITM_deregisterTMCloneTable", "read", "write", "__write", "lseek"}
STARTED |= {"__errno_location", "__xpg_strerror_r"}

# quotients and remainders of the code, by crate
KEPT = {
    # by ten: the digits that the program prints, which the library does not
    "lines": {"n % 10", "n / 10"},
    # of two constants, before anything runs
    "window": {"money::MISSING / 2"},
}
COMMENT = re.compile(r"//.*")
CLAUSE = re.compile(r"^\s*(?:requires|ensures)\b[^{]*\{", re.MULTILINE)
GHOST = re.compile(r"^ghost use [^;]*;", re.MULTILINE)
BRACKETS = "()[]{};,"


def printed(*command):
    """What a command prints."""
    return subprocess.run(command, check=True, stdout=subprocess.PIPE, encoding="utf-8").stdout


def instructions(path):
    """Each instruction of a file of machine code, with the function that it stands in."""
    function = None
    for line in printed("objdump", "--disassemble", "--no-show-raw-insn", path).splitlines():
        if head := FUNCTION.fullmatch(line):
            function = head.group(1)
        elif words := INSTRUCTION.fullmatch(line):
            yield function, " ".join(words.group(1).split())


def divides(instruction):
    """Whether an instruction divides, or is none."""
    name = PREFIX.sub("", instruction, count=1).split(" ")[0]
    return DIVIDES.fullmatch(name) is not None or "(bad)" in instruction


def names(path, kind):
    """The names of a file of machine code that it defines, or that it takes from elsewhere."""
    lines = printed("nm", f"--{kind}-only", path).splitlines()
    return sorted({line.split()[-1].split("@")[0] for line in lines if " " in line})


def machine_faults(path, outside):
    """What divides in a file of machine code, or may; and how many instructions it has."""
    code = list(instructions(path))
    found = [f"{function}: {instruction}" for function, instruction in code if divides(instruction)]
    found += [f"{name} is called for a division" for name in names(path, "defined") if HELPER.fullmatch(name)]
    found += [f"{name} is elsewhere and may divide" for name in names(path, "undefined") if name not in outside]
    return found + ["no code"] * (not code), len(code)


def without_clauses(text):
    """A text without its contracts: each clause goes to the bracket that closes it."""
    while clause := CLAUSE.search(text):
        end, depth = clause.end(), 1
        while depth:
            depth += (text[end] == "{") - (text[end] == "}")
            end += 1
        text = text[: clause.start()] + text[end:]
    return text


def quotients(text):
    """The quotients and remainders of a file of crates/, contracts and comments aside: the words about each sign."""
    for pattern in (COMMENT, GHOST):
        text = pattern.sub("", text)
    text = without_clauses(text)
    words = [word.strip(BRACKETS) for word in text.split()]
    return {" ".join(words[i - 1 : i + 2]) for i, word in enumerate(words) if "/" in word or "%" in word}


def code_faults(root, kept):
    """What is divided and not kept, and what is kept and nowhere divided."""
    there = {}
    for path in sorted((root / "crates").glob("*/src/**/*.rt")):
        crate = path.relative_to(root / "crates").parts[0]
        there.setdefault(crate, set()).update(quotients(path.read_text(encoding="utf-8")))
    found = []
    for crate in sorted({*there, *kept}):
        divided, named = there.get(crate, set()), kept.get(crate, set())
        found += [f"{crate}: {quotient}" for quotient in sorted(divided - named)]
        found += [f"{crate}: no {quotient}" for quotient in sorted(named - divided)]
    return found


def main(library, *programs):
    found = [f"division: crates/{fault}" for fault in code_faults(ROOT, KEPT)]
    counts = []
    for path, outside in (library, OUTSIDE), *((program, OUTSIDE | STARTED) for program in programs):
        faults, count = machine_faults(path, outside)
        found += [f"division: {path}: {fault}" for fault in faults]
        counts.append(f"{count} of {pathlib.Path(path).name}")
    if found:
        sys.exit("\n".join(found))
    print(f"division: no instruction divides: {', '.join(counts)}")


if __name__ == "__main__":
    main(*sys.argv[1:])
