"""Tests of a few instructions each, drawn at random: how one is written, and a function for each class of instructions."""

REGISTERS = [f"x{number}" for number in range(32)]
# Two registers that a test doesn't write: by the one, all are loaded before it and saved behind it, and the other is the link.
PAIRS = [("x1", "x5"), ("x31", "x30"), ("x10", "x17"), ("x2", "x8")]
# The numbers of a guest from which each test takes its registers.
POOL_WORDS = 256
# Amounts of shifts by a register, whose low five bits count.
AMOUNTS = [0, 0, 1, 31, 31, 32, 33, 63, 64, 255, 0x80000000, 0x8000001F, 0xFFFFFFE0, 0xFFFFFFFF]
# Numbers that are drawn more often than others.
EDGES = [0, 1, 2, 31, 32, 33, 64, 255, 256, 0x7F, 0x80, 0x7FF, 0x800, 0x7FFF, 0x8000, 0xFFFF, 0x10000]
EDGES += [0x7FFFFFFF, 0x80000000, 0xFFFFFFFF, 0xFFFFFF80, 0xFFFFF800, 0xFFFFF7FF, 0xFFFF8000]
# The same of immediates.
NUMBERS = [0, 1, -1, 2, 31, 32, 255, 1024, 2046, 2047, -2, -1024, -2047, -2048]


class Test:
    """One test as it is written: the place in the pool of registers with which it begins, the registers that it sets, its
    lines, and the pair of registers that it doesn't write."""

    def __init__(self, draw, name):
        self.draw, self.name = draw, name
        self.place = draw.randrange(POOL_WORDS - 28)
        self.free()
        self.settings, self.lines, self.labels = [], [], 0

    def free(self, *registers):
        """These registers are left to the test's own lines."""
        self.pair = self.draw.choice([pair for pair in PAIRS if not set(pair) & set(registers)])

    def any(self):
        """A register to read."""
        return self.draw.choice(REGISTERS)

    def target(self):
        """A register to write, which may be x0."""
        return self.draw.choice([it for it in REGISTERS if it not in self.pair] + ["x0"] * 2)

    def some(self, count, *others):
        """Registers to write, each another, and none of them x0."""
        return self.draw.sample([it for it in REGISTERS[1:] if it not in self.pair + others], count)

    def number(self):
        """An immediate."""
        return self.draw.choice(NUMBERS) if self.draw.random() < 0.5 else self.draw.randrange(-2048, 2048)

    def edge(self):
        """A number of 32 bits."""
        return self.draw.choice(EDGES) if self.draw.random() < 0.8 else self.draw.randrange(1 << 32)

    def set(self, register, value):
        """A register gets a number, or an address."""
        self.settings.append(f"{'li' if isinstance(value, int) else 'la'} {register}, {value}")

    def label(self):
        self.labels += 1
        return f"{self.name}_{self.labels}"

    def add(self, *lines):
        self.lines += lines

    def text(self):
        """The lines of the test: registers from the pool, those that it sets, its own lines, and all is saved."""
        saver, link = self.pair
        number = PAIRS.index(self.pair)
        return [
            f"# test {self.name}", f"la {saver}, pool + {4 * self.place}", f"jal {link}, begin_{number}", *self.settings,
            *self.lines, f"jal {link}, finish_{number}",
        ]


def registers_with_registers(test):
    for _ in range(4):
        base = test.draw.choice("add sub sll slt sltu xor srl sra or and".split())
        test.add(f"{base} {test.target()}, {test.any()}, {test.any()}")


def registers_with_numbers(test):
    for _ in range(4):
        base = test.draw.choice("addi slti sltiu xori ori andi".split())
        test.add(f"{base} {test.target()}, {test.any()}, {test.number()}")


def shifts(test):
    """Shifts of numbers whose highest bit is set as often as not, by numbers and by registers at their edges."""
    draw = test.draw
    amount, value = test.some(2)
    test.set(amount, draw.choice(AMOUNTS))
    test.set(value, draw.choice((1, 0x80000000, 0xFFFFFFFF, draw.randrange(1 << 32))))
    for _ in range(3):
        if draw.random() < 0.5:
            shift = f"{draw.choice(('slli', 'srli', 'srai'))} {test.target()}, {draw.choice((value, test.any()))}"
            test.add(f"{shift}, {draw.choice((0, 1, 31, draw.randrange(32)))}")
        else:
            test.add(f"{draw.choice(('sll', 'srl', 'sra'))} {test.target()}, {draw.choice((value, test.any()))}, {amount}")


def comparisons_at_edges(test):
    """Comparisons of numbers at the edges of signs, and of a number with itself and with the next ones."""
    draw = test.draw
    first, second, *results = test.some(6)
    number = test.number()
    value = draw.choice((test.edge(), number & 0xFFFFFFFF, number + 1 & 0xFFFFFFFF, number - 1 & 0xFFFFFFFF))
    test.set(first, value)
    test.set(second, draw.choice((value, value + 1 & 0xFFFFFFFF, value ^ 0x80000000, test.edge())))
    for base, result in zip(("slt", "sltu", "slti", "sltiu"), results):
        test.add(f"{base} {result}, {first}, {second if base in ('slt', 'sltu') else number}")
    test.add(f"{draw.choice(('slt', 'sltu'))} {test.target()}, {draw.choice((second, 'x0'))}, {draw.choice((first, 'x0'))}")


def upper_numbers(test):
    draw = test.draw
    for _ in range(3):
        number = draw.choice((0, 1, 0x7FFFF, 0x80000, 0xFFFFF, draw.randrange(1 << 20)))
        register = test.target()
        test.add(f"{draw.choice(('lui', 'auipc'))} {register}, {number}")
        if draw.random() < 0.3:
            test.add(f"addi {test.target()}, {register}, {test.number()}")


SIZES = {"lb": 1, "lbu": 1, "lh": 2, "lhu": 2, "lw": 4, "sb": 1, "sh": 2, "sw": 4}


def address(test, base, size):
    """The base register is set so that with an offset, whose text this is, it is the address of a part of the memory."""
    offset = test.number()
    test.set(base, f"memory + {size * test.draw.randrange(192 // size)} - ({offset})")
    return f"{offset}({base})"


def loads(test):
    """Loads of each size, also into their own bases."""
    bases = test.some(3)
    others = [it for it in REGISTERS if it not in test.pair and it not in bases]
    for base in bases:
        kind = test.draw.choice("lb lh lw lbu lhu".split())
        test.add(f"{kind} {test.draw.choice(others + [base] * 5 + ['x0'] * 2)}, {address(test, base, SIZES[kind])}")


def stores(test):
    """Stores of each size near each other, of any register, their base too, and a load of what is there."""
    draw = test.draw
    base, result = test.some(2)
    place = 4 * draw.randrange(1, 47)
    offset = draw.choice((-2044, 2040, 0, 4 * draw.randrange(-500, 500)))
    test.set(base, f"memory + {place} - ({offset})")
    for _ in range(3):
        kind = draw.choice(("sb", "sh", "sw"))
        at = offset + SIZES[kind] * draw.randrange(-4 // SIZES[kind], 8 // SIZES[kind])
        test.add(f"{kind} {draw.choice((base, 'x0', test.any(), test.any()))}, {max(-2048, min(at, 2044))}({base})")
    test.add(f"{draw.choice(('lw', 'lh', 'lhu', 'lb', 'lbu'))} {result}, {offset}({base})")


def order(draw):
    """The bits by which an exclusive orders other accesses."""
    return draw.choice(("", "", ".aq", ".rl", ".aqrl"))


def exclusives(test):
    """Load-reserved and store-conditional at two words that share no reservation, with plain stores and calls in between."""
    draw = test.draw
    test.free("x10", "x17")
    here, there, status, value = test.some(4, "x10", "x17")
    place = 8 * draw.randrange(2, 10)
    test.set(here, f"memory + {place + 4 * draw.randrange(2)}")
    test.set(there, f"memory + {place + 80 + 4 * draw.randrange(2)}")
    results = [it for it in REGISTERS if it not in test.pair + (here, there)] + [status, status, "x0"]
    if draw.random() < 0.2:
        test.add(f"sc.w{order(draw)} {status}, {value}, ({draw.choice((here, there))})")
    for _ in range(draw.randrange(2, 6)):
        at = draw.choice((here, here, here, there))
        test.add(
            draw.choice((
                f"lr.w{order(draw)} {draw.choice(results)}, ({at})",
                f"lr.w{order(draw)} {draw.choice(results)}, ({here})",
                f"sc.w{order(draw)} {draw.choice(results)}, {test.any()}, ({at})",
                f"sc.w{order(draw)} {draw.choice(results)}, {draw.choice((value, 'x0', status))}, ({here})",
                draw.choice((f"addi {value}, {value}, 1; sw {value}, ({at})", "fence", "li x17, 124; ecall")),
            ))
        )
    if draw.random() < 0.3:
        pair = [f"lr.w {value}, ({here})", f"addi {value}, {value}, 1"]
        test.add(*pair, f"sc.w {draw.choice((value, here, status))}, {value}, ({here})")


def branches(test):
    """A branch by two registers, over an addition or back to one, and a loop."""
    draw = test.draw
    first, second, count = test.some(3)
    value = test.edge()
    test.set(first, value)
    test.set(second, draw.choice((value, value, value ^ 0x80000000, value + 1 & 0xFFFFFFFF, test.edge())))
    names = [first, second] if draw.random() < 0.8 else [draw.choice((first, "x0")), draw.choice((first, "x0", test.any()))]
    draw.shuffle(names)
    branch = f"{draw.choice('beq bne blt bge bltu bgeu'.split())} {names[0]}, {names[1]}"
    step, other, there, end = f"addi {count}, {count}, 1", f"xori {count}, {count}, 0x500", test.label(), test.label()
    kind = draw.randrange(4)
    if kind <= 1:
        test.add(f"{branch}, {there}", step, f"j {end}", f"{there}:", other, f"{end}:")
    elif kind == 2:
        back = test.label()
        test.add(f"j {there}", f"{back}:", step, f"j {end}", f"{there}:", f"{branch}, {back}", other, f"{end}:")
    else:
        loop = draw.choice((f"bne {count}, x0", f"blt x0, {count}", f"bltu x0, {count}", f"bge {count}, {first}"))
        test.set(first, 1)
        test.set(count, draw.randrange(1, 9))
        test.add(f"{there}:", f"xor {second}, {second}, {count}", f"addi {count}, {count}, -1", f"{loop}, {there}")


def jumps(test):
    """A jump past an addition: forward, backward, by a register whose address an offset moves, to a routine and back."""
    draw = test.draw
    link, base, count = test.some(3)
    link = draw.choice((link, link, "x0"))
    step, other, there, end = f"addi {count}, {count}, 1", f"xori {count}, {count}, 0x500", test.label(), test.label()
    kind = draw.randrange(5)
    if kind == 0:
        test.add(f"jal {link}, {there}", step, f"j {end}", f"{there}:", other, f"{end}:")
    elif kind == 1:
        back = test.label()
        test.add(f"j {there}", f"{back}:", step, f"j {end}", f"{there}:", f"jal {link}, {back}", other, f"{end}:")
    elif kind <= 3:
        offset = test.number()
        test.set(base, f"{there} - ({offset}) + {draw.randrange(2)}")
        test.add(f"jalr {draw.choice((link, base))}, {offset}({base})", step, f"j {end}", f"{there}:", other, f"{end}:")
    else:
        link = draw.choice([it for it in ("x1", "x5", link, base) if it not in test.pair + ("x0", count)])
        routine = [f"{there}:", other, f"jalr {draw.choice(('x0', link))}, {4 * draw.randrange(2)}({link})", f"{end}:"]
        test.add(f"jal {link}, {there}", step, step, f"j {end}", *routine)


def fence(draw):
    """A FENCE in one of its spellings, or with fields that are kept for others, which count for nothing."""
    kinds = [f"fence {before}, {after}" for before in ("r", "w", "rw", "i", "iorw") for after in ("r", "w", "rw", "o", "iorw")]
    odd = f".word {draw.randrange(1 << 12) << 20 | draw.randrange(32) << 15 | draw.randrange(32) << 7 | 0xF}"
    return draw.choice(("fence", "fence.tso", "pause", draw.choice(kinds), draw.choice(kinds), odd))


def fences_and_nothing(test):
    """Fences between accesses, and instructions whose target is x0, which change nothing."""
    draw = test.draw
    base, value, result = test.some(3)
    test.set(base, f"memory + {4 * draw.randrange(48)}")
    nothing = ["nop", f"addi x0, {test.any()}, {test.number()}", f"lui x0, {draw.randrange(1 << 20)}", "auipc x0, 1"]
    nothing += [f"add x0, {test.any()}, {test.any()}", f"lw x0, ({base})", f"slli x0, {test.any()}, 3", f"lr.w x0, ({base})"]
    lines = [f"sw {value}, ({base})", f"lw {result}, ({base})", f"add {result}, x0, {result}", f"sub {value}, x0, {result}"]
    for line in lines:
        test.add(fence(draw), draw.choice(nothing), line)


# The number of a call, and its three arguments: sched_yield, unknown ones, those which Arm has for exit and for write, a bad
# descriptor, bytes outside of memory, none, and some.
SYSTEM_CALLS = [
    (124, 7, "text", 5),
    (9999, 7, "text", 5),
    (0xF0001, 7, "text", 5),
    (1, 3, 0, 0),
    (4, 1, 0, 5),
    (64, 77, "text", 5),
    (64, 0xFFFFFFFF, "text", 5),
    (64, 1, 0xF0000000, 5),
    (64, 1, "text", 0),
    (64, 1, "text", 5),
    (64, 2, "text", 5),
    (64, 1, "text + 2", 3),
]


def calls(test):
    """Calls of the system, which change x10 alone."""
    test.free("x10", "x11", "x12", "x17")
    for register, value in zip(("x17", "x10", "x11", "x12"), test.draw.choice(SYSTEM_CALLS)):
        test.set(register, value)
    test.add("ecall")
    if test.draw.random() < 0.3:
        test.add("addi x17, x0, 124", "mv x18, x10", "ecall")
