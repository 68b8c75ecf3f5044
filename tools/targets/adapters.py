"""The C API on targets whose C convention for structs is not the module's: written from the header.

Each adapter is called as the header declares it, calls the proved function with the same arguments,
a struct by a pointer to it and the reply's place first, and returns the reply.
"""

from tools.targets.retarget import PROVED

TOP = """/* Written by tools/targets/adapters.py from include/xaropinto.h. */
#include "xaropinto.h"

/* By this convention a reply of two words is returned in two registers. */
#ifdef _WIN32
#define TWO_REGISTERS __attribute__((sysv_abi))
#else
#define TWO_REGISTERS
#endif
"""
BY_POINTER = """
void *{proved}({reply} *reply{comma}{inner});
{reply} {name}({outer})
{{
    {reply} reply;
    {proved}(&reply{comma}{passed});
    return reply;
}}
"""
IN_REGISTERS = """
{convention}{reply} {proved}({inner});
{reply} {name}({outer})
{{
    return {proved}({passed});
}}
"""


def is_struct(kind):
    """Whether a type of the header is a struct."""
    return kind.startswith("xaropinto_")


def adapters(calls, two_words):
    """The text in C; `two_words` are the names of the calls that reply in two registers."""
    return TOP + "".join(adapter(call, call.name in two_words) for call in calls)


def adapter(call, two_words):
    """The adapter of one call."""
    by_pointer = is_struct(call.reply) and not two_words
    outer = [f"{each.kind}{'' if each.kind.endswith('*') else ' '}{each.name}"
             for each in call.arguments]
    inner = [f"{each.kind} *{each.name}" if is_struct(each.kind) else words
             for each, words in zip(call.arguments, outer)]
    passed = [f"&{each.name}" if is_struct(each.kind) else each.name for each in call.arguments]
    return (BY_POINTER if by_pointer else IN_REGISTERS).format(
        name=call.name, proved=PROVED + call.name, reply=call.reply,
        convention="TWO_REGISTERS " if two_words else "", comma=", " if outer else "",
        outer=", ".join(outer) or "void", inner=", ".join(inner) or "void",
        passed=", ".join(passed))
