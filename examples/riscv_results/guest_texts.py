"""The texts of the guests, each of which is assembled and linked alone."""

import random
import zlib
from typing import NamedTuple, Optional

import random_tests
from random_tests import EDGES, PAIRS, POOL_WORDS, REGISTERS, Test

TESTS = 80

# What each guest has besides its tests. The fold takes the 32 words of saved registers and the 48 words of memory behind them.
FRAME = """
        .option norvc
        .option norelax
        .text
        .global _start
_start: jal     x5, fill
{tests}
        li      a0, 1
        la      a1, output
        la      a2, written
        lw      a2, (a2)
        sub     a2, a2, a1
        li      a7, 64          # write
        ecall
        li      a0, {status}
        li      a7, 93          # exit
        ecall

# Folds the saved registers and the memory, adds the result to the output, and fills the memory anew. The link is x5.
finish: li      x6, 0
        la      x7, saved
        li      x8, 80
1:      lw      x9, (x7)
        slli    x10, x6, 5
        srli    x11, x6, 27
        or      x6, x10, x11
        xor     x6, x6, x9
        slli    x10, x6, 3
        add     x6, x6, x10
        srli    x10, x6, 15
        xor     x6, x6, x10
        addi    x7, x7, 4
        addi    x8, x8, -1
        bnez    x8, 1b
        la      x7, written
        lw      x8, (x7)
        li      x9, 8
        li      x12, 10
2:      srli    x10, x6, 28
        slli    x6, x6, 4
        addi    x11, x10, '0'
        bltu    x10, x12, 3f
        addi    x11, x10, 'a' - 10
3:      sb      x11, (x8)
        addi    x8, x8, 1
        addi    x9, x9, -1
        bnez    x9, 2b
        sb      x12, (x8)       # a newline
        addi    x8, x8, 1
        sw      x8, (x7)
# Fills the memory with numbers that depend on how much is written.
fill:   la      x7, written
        lw      x8, (x7)
        la      x7, memory
        li      x9, 48
4:      slli    x10, x8, 13
        xor     x8, x8, x10
        srli    x10, x8, 17
        xor     x8, x8, x10
        slli    x10, x8, 5
        xor     x8, x8, x10
        sw      x8, (x7)
        addi    x7, x7, 4
        addi    x9, x9, -1
        bnez    x9, 4b
        jr      x5

{routines}

        .section .rodata
        .balign 4
pool:   .word   {pool}
text:   .ascii  "text\\n"
        .data
        .balign 8
saved:  .space  128
memory: .space  192
written: .word  output
        .bss
output: .space  4096
"""

# A guest with as many segments as a file may have: a word of each is folded into the exit.
SEGMENTS = 64
SEGMENTS_FRAME = """
        .option norvc
        .option norelax
        .text
        .global _start
_start: li      a0, 0
        la      a1, addresses
        li      a2, {count}
1:      lw      a3, (a1)
        addi    a1, a1, 4
        lw      a3, (a3)
        slli    a4, a0, 5
        srli    a0, a0, 27
        or      a0, a0, a4
        xor     a0, a0, a3
        addi    a2, a2, -1
        bnez    a2, 1b
        srli    a1, a0, 16
        xor     a0, a0, a1
        srli    a1, a0, 8
        xor     a0, a0, a1
        li      a7, 93          # exit
        ecall
addresses:
        .word   {names}
{sections}
"""
SEGMENTS_LAYOUT = """
ENTRY(_start)
PHDRS {{ code PT_LOAD FLAGS(5); {headers} }}
SECTIONS {{ . = 0x10000 + SIZEOF_HEADERS; .text : {{ *(.text) }} :code {sections} /DISCARD/ : {{ *(.riscv.*) }} }}
"""

# A guest that jumps to a segment far behind and back, and branches as far as a branch goes, both ways; its exit is made of the
# addresses behind the jumps.
FAR_JUMPS = """
        .option norvc
        .option norelax
        .text
        .global _start
_start: li      a0, 1
        jal     ra, far
back:   xor     a0, a0, ra
        xor     a0, a0, t0
1:      bne     ra, x0, 3f      # 4092 bytes
2:      j       4f
        .space  4084
3:      slli    a1, a0, 3
        xor     a0, a0, a1
        blt     x0, ra, 2b      # minus 4096
        li      a0, 0
4:      srli    a1, a0, 8
        xor     a0, a0, a1
        li      a7, 93          # exit
        ecall
        .section .far, "ax"
far:    addi    a0, a0, 4
        jal     t0, back
"""
FAR_JUMPS_LAYOUT = """
ENTRY(_start)
PHDRS { code PT_LOAD FLAGS(5); far PT_LOAD FLAGS(5); }
SECTIONS
{
    . = 0x10000 + SIZEOF_HEADERS;
    .text : { *(.text) } :code
    . = 0xF0000 + (. & 0xFFF);
    .far : { *(.far) } :far
    /DISCARD/ : { *(.riscv.*) }
}
"""

# A guest whose entry is the last word of its code.
LAST_WORD = """
        .option norvc
        .text
        .global _start
first:  li      a0, 77
        li      a7, 93          # exit
        ecall
_start: j       first
"""

# The classes of instructions, each with its number of guests.
CLASSES = [
    (random_tests.registers_with_registers, 5),
    (random_tests.registers_with_numbers, 5),
    (random_tests.shifts, 3),
    (random_tests.comparisons_at_edges, 3),
    (random_tests.upper_numbers, 2),
    (random_tests.loads, 4),
    (random_tests.stores, 4),
    (random_tests.exclusives, 5),
    (random_tests.branches, 4),
    (random_tests.jumps, 4),
    (random_tests.fences_and_nothing, 2),
    (random_tests.calls, 2),
]


class Guest(NamedTuple):
    """A guest's text, and its linker script where it isn't the one that all share."""

    text: str
    layout: Optional[str] = None


def routines():
    """For each pair of registers that a test doesn't write: what loads all others before it, and what saves them behind it."""
    lines = []
    for number, (saver, link) in enumerate(PAIRS):
        others = [register for register in REGISTERS[1:] if register not in (saver, link)]
        lines.append(f"begin_{number}:")
        lines += [f"lw {register}, {4 * place}({saver})" for place, register in enumerate(others)]
        lines += [f"jr {link}", f"finish_{number}:", f"la {saver}, saved"]
        for place, register in enumerate(REGISTERS):
            lines.append(f"sw {register if register in others else 'x0'}, {4 * place}({saver})")
        lines += [f"mv x5, {link}", "j finish"]
    return lines


def guest_of_tests(name, test_lines):
    """A guest of random tests; its name is the seed."""
    draw = random.Random(zlib.crc32(name.encode()))
    pool = [draw.choice(EDGES) if draw.random() < 0.5 else draw.randrange(1 << 32) for _ in range(POOL_WORDS)]
    lines = []
    for number in range(1, TESTS + 1):
        test = Test(draw, f"test_{number}")
        test_lines(test)
        lines += test.text()
    return Guest(
        FRAME.format(
            tests="\n".join(lines), routines="\n".join(routines()), pool=", ".join(map(hex, pool)), status=draw.randrange(1024)
        )
    )


def guest_of_segments():
    names = [f"part_{number}" for number in range(1, SEGMENTS)]
    draw = random.Random(SEGMENTS)
    sections = [f'.section .{name}, "a"\n{name}: .word {draw.randrange(1 << 32)}' for name in names]
    headers = [f"{name} PT_LOAD FLAGS(4);" for name in names]
    places = [f". += 4096; .{name} : {{ *(.{name}) }} :{name}" for name in names]
    return Guest(
        SEGMENTS_FRAME.format(count=len(names), names=", ".join(names), sections="\n".join(sections)),
        SEGMENTS_LAYOUT.format(headers=" ".join(headers), sections=" ".join(places)),
    )


def all_guests():
    """Each guest by its name."""
    guests = {}
    for test_lines, count in CLASSES:
        for number in range(1, count + 1):
            name = f"{test_lines.__name__}_{number}"
            guests[name] = guest_of_tests(name, test_lines)
    guests["segments"] = guest_of_segments()
    guests["far_jumps"] = Guest(FAR_JUMPS, FAR_JUMPS_LAYOUT)
    guests["last_word"] = Guest(LAST_WORD)
    return guests
