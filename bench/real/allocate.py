"""Gives the registers of a part their numbers, and writes its instructions.

The careful manner takes the register that has been free the longest, so that instructions are as free as may be, and clears the one
whose value is needed last; it makes addresses from those that A registers hold. The naive one takes the lowest that is free, and
clears the one that was filled first.
"""
import collections
import itertools

from real.code import Address, copy_pattern
from real.ir import Unsupported

ANY_X = [f"X{n}" for n in range(8)]
LOADED = ANY_X[1:6]
STORED = ANY_X[6:]
ANY_B = [f"B{n}" for n in range(2, 8)]
NEVER = 1 << 30


class Allocator:
    """Allocates the registers of a part that no value has in the whole function (`taken`). What a call before it left in X6 is `entry`.

    A register is `pinned` while the instruction that is being written needs what it holds.
    """

    def __init__(self, operations, is_careful, taken, entry):
        self.operations, self.is_careful = operations, is_careful
        self.lines, self.branch = [], ""  # what is written
        self.pool = [name for name in ANY_X + ANY_B if name not in taken]
        self.holds, self.place = {}, {}  # the value in each register, and the register of each value
        self.freed, self.filled = dict.fromkeys(self.pool, 0), {}  # when, by the clock, each register last was
        self.clock = itertools.count(1)
        self.uses = collections.defaultdict(collections.deque)  # the operations that still need each value
        self.addresses = {}  # what the A registers hold
        self.spills = itertools.count(1)  # the words of values that registers had no room for
        self.read = []  # the registers that the next instruction reads
        for n, operation in enumerate(operations):
            for register in self.needed(operation):
                self.uses[register].append(n)
        if entry and self.uses[entry]:
            self.put(entry, "X6")

    def needed(self, operation):
        return operation.operands + ([operation.value] if operation.value else [])

    # Registers

    def put(self, register, name):
        self.holds[name], self.place[register] = register, name
        self.filled[name] = next(self.clock)

    def free(self, name):
        register = self.holds.pop(name)
        del self.place[register]
        self.freed[name] = next(self.clock)

    def next_use(self, register):
        return self.uses[register][0] if self.uses[register] else NEVER

    def choose(self, allowed, pinned, preferred=()):
        """A register of these that is free, or is made so."""
        allowed = [name for name in allowed if name in self.pool]
        free = [name for name in allowed if name not in self.holds and name not in pinned]
        if free:
            free = [name for name in free if name in preferred] or free
            return min(free, key=lambda name: self.freed[name]) if self.is_careful else free[0]
        full = [name for name in allowed if name in self.holds and name not in pinned and self.may_clear(name, pinned)]
        if not full:
            raise Unsupported("too few registers")
        self.clear(max(full, key=self.order_of_clearing), pinned)
        return next(name for name in allowed if name not in self.holds and name not in pinned)

    def order_of_clearing(self, name):
        if not self.is_careful:
            return -self.filled[name]
        register = self.holds[name]
        return self.next_use(register), bool(register.memory or register.again)

    def may_clear(self, name, pinned):
        """Whether a value needn't be stored, or there is a register from which to store it."""
        register = self.holds[name]
        return bool(register.memory or register.again) or name in STORED or any(through not in [*pinned, *self.read] for through in STORED)

    def clear(self, name, pinned):
        """Frees a register; its value goes to memory, unless it is there or can be made anew."""
        register = self.holds[name]
        if not (register.memory or register.again):
            register.memory = Address("S", offset=next(self.spills))
            through = name
            if name not in STORED:
                through = self.choose(STORED, [*pinned, *self.read, name])
                self.copy(name, through)
            self.set_address(through[1], register.memory)
        self.free(name)

    def bring(self, register, pinned):
        """Puts a value that isn't in a register into one."""
        if register.again:
            name = self.choose(LOADED if register.again.startswith("SA") else ANY_X, pinned)
            self.write(register.again.format(r=name[1]))
        elif register.memory:
            name = self.choose(LOADED, pinned)
            self.set_address(name[1], register.memory)
            if register.bank == "B":
                index = self.choose(ANY_B, pinned)
                self.copy(name, index)
                name = index
        else:
            raise Unsupported("a value that isn't made yet")
        self.put(register, name)

    def name(self, register):
        return register.fixed or self.place[register]

    # Instructions

    def write(self, text):
        self.lines.append(text)

    def copy(self, name, target):
        self.write(copy_pattern(target[0], name[0]).format(r=target[1], a=name))

    def set_address(self, digit, address, operands=()):
        """Sets an A register, and so loads or stores; the careful manner does it by another A register where that is shorter."""
        key = None if address.index else (address.symbol, address.base)
        text = address.pattern().format(**dict(zip("ab", operands)))
        if self.is_careful and key and (address.symbol or address.offset):
            text = self.near(key, address.offset) or text
        self.addresses.pop(digit, None)
        if key:
            self.addresses[digit] = key, address.offset
        self.write(f"SA{digit} {text}")

    def near(self, key, offset):
        """The operand by an A register that holds this address or one next to it."""
        for digit, (known, at) in self.addresses.items():
            if known == key and abs(offset - at) < 2:
                return f"A{digit}" + {0: "", 1: "+B1", -1: "-B1"}[offset - at]
        return ""

    def do(self, n):
        """Writes an operation, by its number, behind what brings its operands into registers."""
        operation = self.operations[n]
        pinned, self.read = [], []
        for register in self.needed(operation):
            if not register.fixed:
                if register not in self.place:
                    self.bring(register, pinned)
                pinned.append(self.place[register])
        self.read = names = [self.name(register) for register in operation.operands]
        stored = self.stored(operation, pinned) if operation.value else ""
        for register in self.needed(operation):
            if self.uses[register] and self.uses[register][0] == n:
                self.uses[register].popleft()
            if not register.fixed and not self.uses[register] and register in self.place:
                self.free(self.place[register])
        if operation.is_end:
            self.branch = operation.pattern.format(**dict(zip("ab", names)))
        elif operation.value:
            self.set_address(stored[1], operation.address, names)
            if operation.is_kept:
                operation.value.memory = operation.address
        else:
            self.make_result(operation, names)

    def stored(self, operation, pinned):
        """The register of what is stored: X6 or X7, into which it is copied if it is elsewhere."""
        register = operation.value
        name = self.name(register)
        if name in STORED:
            return name
        through = self.choose(STORED, pinned)
        self.copy(name, through)
        self.freed[through] = next(self.clock)
        return through

    def make_result(self, operation, names):
        """Writes an operation that has a result, with operands in these registers."""
        result = operation.results[0]
        pinned = [] if not operation.in_place else [name for name in names if name in self.holds]
        if result.fixed:
            own = result.fixed
            self.addresses = {digit: held for digit, held in self.addresses.items() if held[0][1] is not result}
        else:
            own = self.choose(*self.wanted(operation, result, names, pinned))
            if self.uses[result]:
                self.put(result, own)
            else:
                self.freed[own] = next(self.clock)
        if operation.in_place and names[0] != own:
            self.copy(names[0], own)
        second = ""
        if len(operation.results) > 1:
            second = self.choose(ANY_B, [own])
            self.put(operation.results[1], second)
        if operation.address:
            self.set_address(own[1], operation.address, names)
        else:
            self.write(operation.pattern.format(r=own[1], s=second, **dict(zip("ab", names))))

    def wanted(self, operation, result, names, pinned):
        """The registers that a result may have, those that it may not, and those that are best."""
        if operation.address or operation.pattern.startswith("SA"):
            return LOADED, pinned, ()
        if result.bank == "B":
            return ANY_B, pinned, ()
        if operation.in_place and names[0] in self.pool and names[0] not in self.holds:
            return [names[0]], pinned, ()
        is_stored = self.uses[result] and self.operations[self.uses[result][0]].value is result
        return (STORED + ANY_X[:6], pinned, STORED) if is_stored else (ANY_X, pinned, ANY_X[:6])

    def allocate(self):
        """The instructions of the part, and the branch behind them."""
        for n in range(len(self.operations)):
            self.do(n)
        return self.lines, self.branch
