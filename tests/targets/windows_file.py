"""What a DLL, or an object, has of functions: read by the kit's llvm-objdump and llvm-readobj."""

import re
from typing import NamedTuple

from tools.targets.kit import run_tool

INSTRUCTION = re.compile(r"^ *([0-9a-f]+): +\t(\S+)(.*)$", re.M)
TABLE = re.compile(r"StartAddress: \((0x[0-9A-F]+)\)\s+EndAddress: \((0x[0-9A-F]+)\)")
EXPORT = re.compile(r"Export \{[^}]*?Name: (\w+)\n[^}]*\}")
BELOW_STACK = re.compile(r"-0x[0-9a-f]+\(%rsp")
# A jump out of a function leaves the stack as it was at its start.
MOVES_STACK = re.compile(r"^(?:push|pop|call)|%rsp$")


class Instruction(NamedTuple):
    """An instruction: its address, its name, and its operands as they are printed."""

    address: int
    name: str
    operands: str


def instructions(path):
    """All instructions of a file."""
    printed = run_tool("llvm-objdump", "--disassemble", "--no-show-raw-insn", path)
    return [Instruction(int(address, 16), name, operands.partition("#")[0].strip())
            for address, name, operands in INSTRUCTION.findall(printed)]


def below_stack(found):
    """The instructions with an operand below the stack pointer."""
    return [each for each in found if BELOW_STACK.search(each.operands)]


def unwind_tables(path):
    """From where to where each unwind table of a file holds."""
    printed = run_tool("llvm-readobj", "--unwind", path)
    return [(int(start, 16), int(end, 16)) for start, end in TABLE.findall(printed)]


def without_table(found, tables):
    """The instructions that call, or move the stack pointer, where no unwind table holds."""
    moving = [each for each in found
              if MOVES_STACK.search(each.name) or MOVES_STACK.search(each.operands)]
    return [each for each in moving
            if not any(start <= each.address < end for start, end in tables)]


def exports(path):
    """The names that a DLL exports."""
    return set(EXPORT.findall(run_tool("llvm-readobj", "--coff-exports", path)))


def has_imports(path):
    """Whether a DLL needs any other."""
    return "Import {" in run_tool("llvm-readobj", "--coff-imports", path)
