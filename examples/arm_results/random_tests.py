"""Tests of a few instructions each, drawn at random: how one is written, and a function for each class of instructions."""

# Always comes as often as four others.
CONDITIONS = "eq ne cs cc mi pl vs vc hi ls ge lt gt le".split() + [""] * 4
REGISTERS = [f"r{number}" for number in range(13)] + ["sp", "lr"]
SHIFTS = ["lsl", "lsr", "asr", "ror"]
# The numbers of a guest from which each test takes its registers.
POOL_WORDS = 256
# Amounts of shifts by a register, whose low byte counts.
AMOUNTS = [0, 0, 1, 31, 32, 32, 32, 33, 63, 64, 65, 96, 255, 256, 288, 0xFFFFFF20]
# Numbers that are drawn more often than others.
EDGES = [0, 1, 2, 31, 32, 33, 64, 255, 256, 0x7F, 0x80, 0x7FFF, 0x8000, 0xFFFF, 0x10000]
EDGES += [0x7FFFFFFF, 0x80000000, 0xFFFFFFFF, 0xFFFFFF80]

# How to have C and V.
CARRY_AND_OVERFLOW = {
    (0, 0): ["mov r0, #0", "cmn r0, #0"],
    (1, 0): ["mov r0, #0", "cmp r0, #0"],
    (0, 1): ["mvn r0, #0x80000000", "cmn r0, #1"],
    (1, 1): ["mov r0, #0x80000000", "cmp r0, #1"],
}
# How to have N and Z, with C and V kept.
SIGN_AND_ZERO = {(0, 0): "mov r0, #1", (1, 0): "mov r0, #0x80000000", (0, 1): "mov r0, #0"}


def flag_calls():
    """A routine for each setting of the flags that an instruction can leave."""
    lines = []
    for (n, z), last in SIGN_AND_ZERO.items():
        for (c, v), first in CARRY_AND_OVERFLOW.items():
            lines += [f"flags_{n}{z}{c}{v}:", *first, last, "movs r0, r0", "bx lr"]
    return lines


def shifted(value, kind, amount, carry):
    """A register shifted by a number, to place a base below or above it."""
    signed = value - (value >> 31 << 32)
    if kind == "lsl":
        return value << amount & 0xFFFFFFFF
    if kind == "lsr":
        return value >> amount
    if kind == "asr":
        return signed >> amount & 0xFFFFFFFF
    if kind == "rrx":
        return value >> 1 | carry << 31
    return (value >> amount | value << 32 - amount) & 0xFFFFFFFF


class Test:
    """One test as it is written: the flags and the place in the pool of registers with which it begins, the registers that
    it sets, its lines, and the register by which all are saved behind it, which it doesn't write."""

    def __init__(self, draw, name):
        self.draw, self.name = draw, name
        self.place = draw.randrange(POOL_WORDS - 15)
        self.n, self.z = draw.choice(list(SIGN_AND_ZERO))
        self.c, self.v = draw.choice(list(CARRY_AND_OVERFLOW))
        self.saver = draw.choice(REGISTERS)
        self.settings, self.lines, self.labels = [], [], 0

    def free(self, *registers):
        """These registers are left to the test's own lines."""
        self.saver = self.draw.choice([it for it in REGISTERS if it not in registers])

    def condition(self):
        return self.draw.choice(CONDITIONS)

    def any(self):
        """A register to read."""
        return self.draw.choice(REGISTERS)

    def any_or_pc(self):
        """A register to read where the PC may stand."""
        return self.draw.choice(REGISTERS + ["pc"])

    def some(self, count, among=None):
        """Registers to write, each another."""
        return self.draw.sample([it for it in among or REGISTERS if it != self.saver], count)

    def set(self, register, value):
        """A register gets a number, or an address, which stands as a word behind a branch past it."""
        if isinstance(value, int):
            self.settings += [f"movw {register}, #{value & 0xFFFF}", f"movt {register}, #{value >> 16}"]
        else:
            self.settings += [f"ldr {register}, [pc]", "b . + 8", f".word {value}"]

    def label(self):
        self.labels += 1
        return f"{self.name}_{self.labels}"

    def add(self, *lines):
        self.lines += lines

    def text(self):
        """The lines of the test: flags, registers from the pool, those that it sets, its own lines, and all is saved."""
        first = self.draw.choice(REGISTERS)
        setting = self.settings
        self.settings = []
        self.set(first, f"pool + {4 * self.place}")
        before = self.settings + [f"ldmia {first}, {{r0-r14}}"] + setting
        self.settings = []
        self.set(self.saver, "saved")
        return [
            f"@ test {self.name}", f"bl flags_{self.n}{self.z}{self.c}{self.v}", *before, *self.settings, *self.lines,
            f"stmia {self.saver}, {{r0-r14}}", "bl finish",
        ]


def alu(test, operand):
    """Three data-processing instructions with second operands of one kind."""
    registers = test.any if operand == "register" else test.any_or_pc
    for _ in range(3):
        base = test.draw.choice("and eor sub rsb add adc sbc rsc orr bic mov mvn tst teq cmp cmn".split())
        second = second_operand(test, operand)
        condition = test.condition()
        if base in ("tst", "teq", "cmp", "cmn"):
            test.add(f"{base}{condition} {registers()}, {second}")
            continue
        first = "" if base in ("mov", "mvn") else f"{registers()}, "
        test.add(f"{base}{test.draw.choice(('', 's'))}{condition} {test.some(1)[0]}, {first}{second}")


def second_operand(test, operand):
    draw = test.draw
    if operand == "number":
        return f"#{draw.choice((0, 1, 127, 128, 255, draw.randrange(256)))}, #{draw.choice((0, 0, draw.randrange(0, 32, 2)))}"
    kind = draw.choice(SHIFTS)
    if operand == "register":
        amount = test.any()
        if amount != test.saver and draw.random() < 0.7:
            test.set(amount, draw.choice(AMOUNTS))
        return f"{test.any()}, {kind} {amount}"
    register = test.any_or_pc()
    amount = draw.choice((1, 31, draw.randrange(1, 32)) + ((32,) if kind in ("lsr", "asr") else ()))
    return draw.choice((register, f"{register}, rrx", f"{register}, {kind} #{amount}", f"{register}, {kind} #{amount}"))


def data_processing_by_numbers(test):
    alu(test, "number")


def data_processing_by_shifts(test):
    alu(test, "shift")


def data_processing_by_registers(test):
    alu(test, "register")


def products(test):
    for _ in range(2):
        base = test.draw.choice("mul mla mls umull umlal smull smlal".split())
        condition = test.condition()
        s = "" if base == "mls" else test.draw.choice(("", "s"))
        first, second = test.some(2)
        registers = {"mul": [first], "mla": [first], "mls": [first]}.get(base, [first, second])
        registers += [test.any(), test.any()] + [test.any()] * (base in ("mla", "mls"))
        test.add(f"{base}{s}{condition} {', '.join(registers)}")


def flags_at_edges(test):
    """One instruction that sets the flags, always carried out, on numbers at the edges of sums, shifts and products."""
    draw = test.draw
    first, second, low, high = test.some(4)
    for register in (first, second):
        test.set(register, draw.choice((0, 1, 0x10000, 0x7FFFFFFF, 0x80000000, 0xFFFFFFFF)))
    kind = draw.choice(("sum", "shift", "product"))
    if kind == "sum":
        base = draw.choice("adds adcs subs sbcs rsbs rscs".split())
        test.add(f"{base} {low}, {first}, {second}")
    elif kind == "shift":
        test.set(second, draw.choice(AMOUNTS))
        test.add(f"{draw.choice(('movs', 'mvns'))} {low}, {first}, {draw.choice(SHIFTS)} {second}")
    else:
        for register in (low, high):
            test.set(register, draw.choice((0, 1, 0xFFFFFFFF)))
        test.add(f"{draw.choice('umulls umlals smulls smlals'.split())} {low}, {high}, {first}, {second}")


def moves_and_extends(test):
    for _ in range(3):
        base = test.draw.choice("movw movt clz rev sxtb sxth uxtb uxth nop yield".split())
        condition = test.condition()
        register = test.some(1)[0]
        if base in ("nop", "yield"):
            test.add(base + condition)
        elif base in ("movw", "movt"):
            test.add(f"{base}{condition} {register}, #{test.draw.choice((0, 1, 0x8000, 0xFFFF, test.draw.randrange(1 << 16)))}")
        else:
            turn = test.draw.choice(("", ", ror #8", ", ror #16", ", ror #24")) if base[1:3] == "xt" else ""
            test.add(f"{base}{condition} {register}, {test.any()}{turn}")


def one_access(test, bases, sizes, most, shifts):
    """A load or a store of one register, with any offset and index."""
    draw = test.draw
    base = draw.choice(bases)
    size = sizes[base]
    value, register = test.some(2)
    index = draw.choice(("plain", "pre", "post"))
    others = [value] + [register] * (index == "plain") + ["pc"] * (base == "str")
    sign = draw.choice(("", "-"))
    if draw.random() < 0.5:
        offset = draw.choice((0, 1, 4, most, draw.randrange(most + 1)))
        written = f"#{sign}{offset}"
    else:
        offset, written = register_offset(test, register, sign, draw.choice(shifts))
    target = f"memory + {size * draw.randrange(16 // size, 160 // size)}"
    if index != "post":
        target += f" - ({sign}{offset})".replace("--", "")
    test.set(register, target)
    address = {"plain": f"[{register}, {written}]", "pre": f"[{register}, {written}]!", "post": f"[{register}], {written}"}[index]
    test.add(f"{base}{test.condition()} {draw.choice(others)}, {address}")


def register_offset(test, base, sign, shift):
    """A register as an offset: the number that it comes to, read as signed, and its text."""
    kind, amount = shift
    register = test.draw.choice([it for it in REGISTERS if it not in (base, test.saver)])
    number = test.draw.choice((0, 4, 0x10, 0x80000001, test.draw.randrange(1 << 32)))
    test.set(register, number)
    offset = shifted(number, kind, amount, test.c)
    text = {"rrx": ", rrx"}.get(kind, f", {kind} #{amount}" if amount else "")
    return offset - (offset >> 31 << 32), f"{sign}{register}{text}"


def words_and_bytes(test):
    kinds = [("lsl", 0), ("rrx", 1)] + [(kind, amount) for kind in SHIFTS for amount in (1, 2, 31)] + [("lsr", 32), ("asr", 32)]
    one_access(test, "ldr str ldrb strb".split(), {"ldr": 4, "str": 4, "ldrb": 1, "strb": 1}, 4095, kinds)
    if test.draw.random() < 0.2:
        test.add(f"ldr{test.condition()} {test.some(1)[0]}, [pc, #-{4 * test.draw.randrange(3)}]")


def halves_and_signed_bytes(test):
    one_access(test, "ldrh strh ldrsb ldrsh".split(), {"ldrh": 2, "strh": 2, "ldrsb": 1, "ldrsh": 2}, 255, [("lsl", 0)])


def blocks(test):
    """A load or a store of some registers, around the middle of the memory."""
    draw = test.draw
    way = draw.choice("ia ib da db".split())
    load = draw.choice((True, False))
    base = test.some(1)[0]
    test.set(base, f"memory + {4 * draw.randrange(17, 31)}")
    listed = sorted(draw.sample(range(15), draw.randrange(1, 15)))
    back = draw.choice(("!", ""))
    if load:
        kept = [test.saver] + [base] * (back == "!")
        listed = [it for it in listed if REGISTERS[it] not in kept] or [it for it in range(15) if REGISTERS[it] not in kept][:1]
    elif back and base in [REGISTERS[it] for it in listed[1:]]:
        listed = [it for it in listed if it >= REGISTERS.index(base)]
    names = [REGISTERS[it] for it in listed] + (["pc"] if not load and draw.random() < 0.3 else [])
    test.add(f"{'ldm' if load else 'stm'}{way}{test.condition()} {base}{back}, {{{', '.join(names)}}}")


def exclusives(test):
    """Load-exclusives and store-exclusives of one size at two places that share no reservation."""
    draw = test.draw
    size = draw.choice(("", "b", "h", "d"))
    width = {"": 4, "b": 1, "h": 2, "d": 8}[size]
    pairs = [(REGISTERS[it], REGISTERS[it + 1]) for it in range(0, 14, 2) if test.saver not in REGISTERS[it : it + 2]]
    loaded, stored = draw.sample(pairs, 2)
    taken = set(loaded + stored)
    here, there, status, other = test.some(4, [it for it in REGISTERS if it not in taken])
    place = 8 * draw.randrange(2, 10)
    test.set(here, f"memory + {place + width * draw.randrange(8 // width)}")
    test.set(there, f"memory + {place + 80 + width * draw.randrange(8 // width)}")
    load, store = [", ".join(it) if size == "d" else draw.choice(it) for it in (loaded, stored)]
    test.add("clrex")
    if draw.random() < 0.2:
        test.add(f"ldrex{size} {load}, [{here}]", "clrex", f"strex{size} {status}, {store}, [{here}]")
    for _ in range(draw.randrange(2, 6)):
        at = draw.choice((here, here, here, there))
        test.add(
            draw.choice((
                f"ldrex{size}{draw.choice(('', test.condition()))} {load}, [{at}]",
                f"ldrex{size} {load}, [{at}]",
                f"strex{size}{test.condition()} {draw.choice((status, other))}, {draw.choice((load, store))}, [{at}]",
                f"strex{size} {draw.choice((status, other))}, {store}, [{at}]",
                draw.choice(("clrex", "dmb", "dsb", "isb", "nop")),
            ))
        )


JUMPS = ["b{c} {there}", "bl{c} {there}", "bx{c} {target}", "blx{c} {target}", "mov{c} pc, {target}", "add{c} pc, {target}, #0"]
JUMPS_BY_MEMORY = ["ldr{c} pc, [{cell}]", "ldr{c} pc, [{cell}], #8", "ldm{c} {cell}, {{{count}, pc}}", "ldmdb{c} {cell}!, {{pc}}"]


def branches(test):
    """A jump past an addition, if its condition passes: forward, through memory, backward, by the link register, from the PC."""
    draw = test.draw
    test.free("lr")
    count, target, cell = test.some(3, REGISTERS[:14])
    there, end = test.label(), test.label()
    condition = test.condition()
    step = [f"add {count}, {count}, #1"]
    landed = [f"{there}:", f"eor {count}, {count}, #0x500", f"{end}:"]
    kind = draw.randrange(6)
    if kind <= 1:
        test.set(target, there)
        test.add(draw.choice(JUMPS).format(c=condition, there=there, target=target), *step, f"b {end}", *landed)
    elif kind == 2:
        form = draw.choice(JUMPS_BY_MEMORY)
        at = 4 * draw.randrange(4, 20)
        base = at - (4 if "ldm{" in form else -4 if "ldmdb" in form else 0)
        test.set(target, there)
        test.set(cell, f"memory + {base}")
        store = f"str {target}, [{cell}, #{at - base}]"
        test.add(store, form.format(c=condition, cell=cell, count=count), *step, f"b {end}", *landed)
    elif kind == 3:
        back = test.label()
        jump = f"b{draw.choice(('', 'l'))}{condition} {back}"
        test.add(f"b {there}", f"{back}:", *step, f"b {end}", f"{there}:", jump, f"{end}:")
    elif kind == 4:
        test.set("lr", there)
        test.add(f"blx{condition} lr", *step, f"b {end}", *landed)
    else:
        call = draw.choice((f"bx{condition} pc", f"add{condition} pc, pc, #0", f"mov{condition} pc, pc", f"b{condition} . + 8"))
        test.add(call, *step, f"eor {count}, {count}, #0x700")


def calls_and_returns(test):
    """A call of a routine, which returns by one of two ways, and calls of the system that aren't answered by a text."""
    draw = test.draw
    if draw.random() < 0.5:
        system_call(test)
        return
    test.free("lr")
    count = test.some(1, REGISTERS[:14])[0]
    routine, end = test.label(), test.label()
    test.add(
        f"bl{test.condition()} {routine}", f"add {count}, {count}, #1", f"b {end}",
        f"{routine}:", f"eor {count}, {count}, #0x300", f"bx{test.condition()} lr", f"add {count}, {count}, #2", f"{end}:",
    )
    if "bl " not in test.lines[0]:
        test.set("lr", end)


# The number of a call, its three arguments, and the immediate: sched_yield, an unknown one, other immediates (which Linux has
# for calls of its own), a bad descriptor, bytes outside of memory, none, and some.
SYSTEM_CALLS = [
    (158, 7, "text", 5, 0),
    (9999, 7, "text", 5, 0),
    (4, 1, "text", 5, 0x9F0100),
    (158, 3, "text", 5, 0x9F0200),
    (4, 77, "text", 5, 0),
    (4, 1, 0xF0000000, 5, 0),
    (4, 1, "text", 0, 0),
    (4, 1, "text", 5, 0),
    (4, 2, "text", 5, 0),
]


def system_call(test):
    test.free("r0", "r1", "r2", "r7")
    *values, immediate = test.draw.choice(SYSTEM_CALLS)
    for register, value in zip(("r7", "r0", "r1", "r2"), values):
        test.set(register, value)
    test.add(f"svc{test.condition()} #{immediate}")
