"""The texts of the guests, each of which is assembled and linked alone."""

import random
import zlib
from typing import NamedTuple, Optional

import random_tests
from random_tests import EDGES, POOL_WORDS, Test, flag_calls

TESTS = 80

# What each guest has besides its tests. The fold takes the 16 words of saved registers and the 48 words of memory behind them.
FRAME = """
        .syntax unified
        .arch   armv7-a
        .text
        .global _start
_start:
        bl      fill
{tests}
        mov     r0, #1
        ldr     r1, =output
        ldr     r2, =written
        ldr     r2, [r2]
        sub     r2, r2, r1
        mov     r7, #4          @ write
        svc     #0
        ldr     r0, ={status}
        mov     r7, #1          @ exit
        svc     #0

@ Folds the flags, the saved registers and the memory, adds the result to the output, and fills the memory anew.
finish: mov     r0, #0
        orrmi   r0, r0, #8
        orreq   r0, r0, #4
        orrcs   r0, r0, #2
        orrvs   r0, r0, #1
        ldr     r1, =saved
        ldr     r2, =0x9e3779b1
        mov     r3, #64
1:      ldr     r4, [r1], #4
        eor     r0, r4, r0, ror #27
        mul     r0, r2, r0
        eor     r0, r0, r0, lsr #15
        subs    r3, r3, #1
        bne     1b
        ldr     r1, =written
        ldr     r2, [r1]
        mov     r3, #8
2:      mov     r0, r0, ror #28
        and     r4, r0, #15
        cmp     r4, #10
        addlt   r4, r4, #'0'
        addge   r4, r4, #'a' - 10
        strb    r4, [r2], #1
        subs    r3, r3, #1
        bne     2b
        mov     r4, #'\\n'
        strb    r4, [r2], #1
        str     r2, [r1]
@ Fills the memory with numbers that depend on how much is written.
fill:   ldr     r1, =written
        ldr     r2, [r1]
        ldr     r1, =memory
        ldr     r4, =1664525
        ldr     r5, =1013904223
        mov     r3, #48
3:      mla     r2, r2, r4, r5
        eor     r6, r2, r2, lsr #16
        str     r6, [r1], #4
        subs    r3, r3, #1
        bne     3b
        bx      lr

{flags}
        .ltorg

        .section .rodata
pool:   .word   {pool}
text:   .ascii  "text\\n"
        .data
        .balign 8
saved:  .space  64
memory: .space  192
written: .word  output
        .bss
output: .space  4096
"""

# A guest that jumps to an odd address, where Thumb code writes a text and exits. A guest that runs no Thumb code stops at the
# jump.
JUMP_FRAME = """
        .syntax unified
        .arch   armv7-a
        .text
        .global _start
_start: ldr     r1, =there + 1
        ldr     r2, =cell
        str     r1, [r2]
        str     r1, [r2, #4]
        mov     lr, r1
jump:   {jump}
        mov     r0, #3
        mov     r7, #1          @ exit
        svc     #0
        .ltorg

        .thumb
        .thumb_func
there:  movs    r0, #1
        ldr     r1, =text
        movs    r2, #6
        movs    r7, #4          @ write
        svc     #0
        movs    r0, #0
        movs    r7, #1          @ exit
        svc     #0
        .ltorg

        .section .rodata
text:   .ascii  "Thumb\\n"
        .data
        .balign 8
cell:   .space  8
"""

JUMPS = [
    "bx r1", "blx r1", "bx lr", "blx lr", "mov pc, r1", "add pc, r1, #0", "orr pc, r1, r1", "ldr pc, [r2]", "ldr pc, [r2, #4]!",
    "ldr pc, [r2], #4", "ldmia r2, {pc}", "ldmia r2!, {r3, pc}",
]

# A guest with as many segments as a file may have: a word of each is folded into the exit.
SEGMENTS = 64
SEGMENTS_FRAME = """
        .text
        .global _start
_start: mov     r0, #0
        ldr     r1, =addresses
        mov     r2, #{count}
1:      ldr     r3, [r1], #4
        ldr     r3, [r3]
        eor     r0, r3, r0, ror #27
        subs    r2, r2, #1
        bne     1b
        eor     r0, r0, r0, lsr #16
        eor     r0, r0, r0, lsr #8
        mov     r7, #1          @ exit
        svc     #0
        .ltorg
addresses:
        .word   {names}
{sections}
"""
SEGMENTS_LAYOUT = """
ENTRY(_start)
PHDRS {{ code PT_LOAD FLAGS(5); {headers} }}
SECTIONS {{ . = 0x10000 + SIZEOF_HEADERS; .text : {{ *(.text) }} :code {sections} /DISCARD/ : {{ *(.ARM.*) }} }}
"""

# A guest whose entry is the last word of its code.
LAST_WORD = """
        .text
        .global _start
first:  mov     r0, #77
        mov     r7, #1          @ exit
        svc     #0
_start: b       first
"""

# The classes of instructions, each with its number of guests.
CLASSES = [
    (random_tests.data_processing_by_numbers, 6),
    (random_tests.data_processing_by_shifts, 6),
    (random_tests.data_processing_by_registers, 8),
    (random_tests.products, 4),
    (random_tests.flags_at_edges, 3),
    (random_tests.moves_and_extends, 4),
    (random_tests.words_and_bytes, 5),
    (random_tests.halves_and_signed_bytes, 4),
    (random_tests.blocks, 4),
    (random_tests.exclusives, 5),
    (random_tests.branches, 4),
    (random_tests.calls_and_returns, 3),
]


class Guest(NamedTuple):
    """A guest's text, its linker script where it isn't the one that all share, and whether it goes over to Thumb code."""

    text: str
    layout: Optional[str] = None
    to_thumb: bool = False


def guest_of_tests(name, test_lines):
    """A guest of random tests; its name is the seed."""
    draw = random.Random(zlib.crc32(name.encode()))
    pool = [draw.choice(EDGES) if draw.random() < 0.5 else draw.randrange(1 << 32) for _ in range(POOL_WORDS)]
    lines = []
    for number in range(1, TESTS + 1):
        test = Test(draw, f"test_{number}")
        test_lines(test)
        lines += test.text()
    return Guest(
        FRAME.format(
            tests="\n".join(lines), flags="\n".join(flag_calls()), pool=", ".join(map(hex, pool)), status=draw.randrange(1024)
        )
    )


def guest_of_segments():
    names = [f"part_{number}" for number in range(1, SEGMENTS)]
    draw = random.Random(SEGMENTS)
    sections = [f'.section .{name}, "a"\n{name}: .word {draw.randrange(1 << 32)}' for name in names]
    headers = [f"{name} PT_LOAD FLAGS(4);" for name in names]
    places = [f". += 4096; .{name} : {{ *(.{name}) }} :{name}" for name in names]
    return Guest(
        SEGMENTS_FRAME.format(count=len(names), names=", ".join(names), sections="\n".join(sections)),
        SEGMENTS_LAYOUT.format(headers=" ".join(headers), sections=" ".join(places)),
    )


def all_guests():
    """Each guest by its name."""
    guests = {}
    for test_lines, count in CLASSES:
        for number in range(1, count + 1):
            name = f"{test_lines.__name__}_{number}"
            guests[name] = guest_of_tests(name, test_lines)
    for number, jump in enumerate(JUMPS, 1):
        guests[f"to_thumb_{number}"] = Guest(JUMP_FRAME.format(jump=jump), to_thumb=True)
    guests["segments"] = guest_of_segments()
    guests["last_word"] = Guest(LAST_WORD)
    return guests
