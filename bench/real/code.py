"""Code for the 6600 from a function, part by part, with registers that have no number yet.

A part ends where a block or a call does. Integers, pointers and bytes take a word each; a truth value is a word of zeros or of ones.
Values that several parts use have a word of memory, or in the careful manner, the most used of them, a register in the whole function.
Both manners keep B1 at one, as programs of the time did.

The careful manner folds addresses into loads and stores, makes constants once a part, and compares in B registers where it can. The
naive one works out each address, makes constants anew, and stores at once what other parts use.
"""
import dataclasses

from real.ir import Unsupported, Value

INLINE = ("@llvm.fabs", "@llvm.abs", "@llvm.smax", "@llvm.smin", "@llvm.umax", "@llvm.umin", "@llvm.ctpop", "@llvm.fmuladd", "@llvm.fshl")
ENDS = ("br", "switch", "ret", "unreachable")
SHORT = 1 << 17  # what a constant of an instruction is below
WORD = 60
WORDS = ("P", "V", "S", "Q")  # of parameters, values, spilled registers, arguments: S.3 is the third


class Register:
    """A value that needs a register of a bank, or has one in the whole function.

    It can be made anew by the pattern `again`, and it stands in the word `memory`, if they are given.
    """

    def __init__(self, bank, fixed="", again="", memory=None):
        self.bank, self.fixed, self.again, self.memory = bank, fixed, again, memory


@dataclasses.dataclass(frozen=True)
class Address:
    """A symbol, a register or both, and behind it a number of words or an index register."""

    symbol: str = ""
    base: Register = None
    offset: int = 0
    index: Register = None

    def registers(self):
        return [register for register in (self.base, self.index) if register]

    def pattern(self):
        """The operand of an instruction that sets a register to the address."""
        if self.symbol in WORDS:
            return f"{self.symbol}.{self.offset}"
        if self.index:
            return "{a}+{b}"
        words = f"{self.offset:+}" if self.offset else ""
        if not self.base:
            return self.symbol + words
        return "{a}" + (f"+{self.symbol}" if self.symbol else "") + words


@dataclasses.dataclass
class Operation:
    """An instruction: {r} is the digit of its first result, {s} the second result, {a} and {b} are its operands, {v} what it stores."""

    pattern: str
    results: list
    operands: list
    in_place: bool = False  # the result and the first operand are the same register
    value: Register = None
    address: Address = None
    is_kept: bool = False  # a store that leaves a value where all parts find it
    is_end: bool = False


@dataclasses.dataclass
class Part:
    number: int
    label: str
    phis: list
    instructions: list
    end: object
    entry: str = ""  # the result of the call before it
    successors: list = dataclasses.field(default_factory=list)


def copy_pattern(to_bank, from_bank):
    """The instruction that copies a register of one bank into one of another or the same."""
    if to_bank == "B":
        return "SB{r} {a}"
    return "BX{r} {a}" if from_bank == "X" else "SX{r} {a}"


def exponent_of(value):
    """Which power of two a constant is, or nothing if it is none."""
    is_power = value.kind == "int" and value.number > 0 and value.number & (value.number - 1) == 0
    return value.number.bit_length() - 1 if is_power else None


def relation(predicate):
    """The relation of a predicate, whatever it says of signs and order: eq, ne, lt, le, gt or ge, or another of the rare ord and uno."""
    return predicate[-2:]


def is_call(this):
    return this.operation == "call" and not this.detail.startswith(INLINE)


def parts_of(function):
    """The function cut at calls; each part knows which follow."""
    parts, first, last = [], {}, {}
    for block in function.blocks:
        phis = [this for this in block.instructions if this.operation == "phi"]
        part = Part(len(parts), block.name, phis, [], None)
        first[block.name] = part.number
        for this in block.instructions[len(phis) :]:
            if is_call(this) or this.operation in ENDS:
                part.end = this
                parts.append(part)
                part = Part(len(parts), "", [], [], None, this.result)
            else:
                part.instructions.append(this)
        last[block.name] = len(parts) - 1
    for part in parts:
        if is_call(part.end):
            part.successors = [part.number + 1]
        else:
            part.successors = list(dict.fromkeys(first[label] for label in part.end.detail or [] if part.end.operation != "ret"))
    return parts, last


class Uses:
    """Where the values of a function are made and used.

    A value is `made` in a part, by its `maker`, and `used` in parts, at places, by instructions. At the end of a part there are
    `incoming` values for the phis behind it. Values that are used in another part than that which makes them are `crossing`.
    """

    def __init__(self, function, parts, last):
        self.parts, self.made, self.used = parts, {name: 0 for name in function.parameters}, {}
        self.maker, self.incoming = {}, {}
        for part in parts:
            for place, this in enumerate(part.phis + part.instructions + [part.end]):
                self.made[this.result] = part.number + (this is part.end)
                self.maker[this.result] = this
                if this.operation == "phi":
                    for value, label in zip(this.operands, this.detail):
                        self.use(value, last[label], None, this)
                        self.incoming.setdefault(last[label], []).append((part.number, this.result, value))
                else:
                    for value in this.operands:
                        self.use(value, part.number, place, this)
        self.parameters = set(function.parameters)
        phis = {this.result for part in parts for this in part.phis}
        self.crossing = {name for name, uses in self.used.items() if name in phis | self.parameters or any(part != self.made.get(name) for part, _, _ in uses)}
        self.depth = self.depths()
        self.live = self.live_in()

    def use(self, value, part, place, by):
        if value.kind == "local":
            self.used.setdefault(value.name, []).append((part, place, by))

    def depths(self):
        """How many loops each part is in, by branches back."""
        depth = [0] * len(self.parts)
        for part in self.parts:
            for target in part.successors:
                for n in range(target, part.number + 1):
                    depth[n] += 1
        return [min(d, 6) for d in depth]

    def live_in(self):
        """The crossing values that each part or one after it uses before they are made."""
        made, needed = [set() for _ in self.parts], [set() for _ in self.parts]
        for name in self.crossing:
            made[min(self.made[name], len(self.parts) - 1)].add(name)
            for part, _, _ in self.used[name]:
                if self.made[name] != part or self.maker.get(name) in self.parts[part].phis:
                    needed[part].add(name)
        live = [set(names) for names in needed]
        for part in self.parts:
            made[part.number] |= {this.result for this in part.phis}
        changed = True
        while changed:
            changed = False
            for part in reversed(self.parts):
                behind = set().union(*(live[n] - {this.result for this in self.parts[n].phis} for n in part.successors)) if part.successors else set()
                grown = needed[part.number] | (behind - made[part.number])
                if not grown <= live[part.number]:
                    live[part.number] |= grown
                    changed = True
        return live

    def last_use(self, name, part):
        """The place of a value's last use in a part, of addresses and comparisons that are folded the last of these."""
        places = [-1]
        for number, place, by in self.used.get(name, []):
            if number == part:
                folded = by.operation in ("getelementptr", "icmp", "bitcast", "zext", "sext", "trunc")
                places += [1 << 30 if place is None else place] + ([self.last_use(by.result, part)] if folded and by.result else [])
        return max(places)


class Homes:
    """Which registers and words values have in the whole function."""

    def __init__(self, uses, is_careful):
        self.uses = uses
        self.group = {}  # for a value that shares the place of another, its leader, this other
        self.fixed, self.word = {}, {}  # the register or the word of each leader
        if is_careful:
            self.join_steps()
            self.give_registers()

    def join_steps(self):
        """Puts what a loop's variable becomes into the variable's own place, where nothing needs the old one after that."""
        for number, moves in self.uses.incoming.items():
            for target, phi, value in moves:
                name, part = value.name, self.uses.parts[number]
                if value.kind != "local" or self.uses.made.get(name) != number or name not in self.uses.maker or name in self.group:
                    continue
                maker = self.uses.maker[name]
                elsewhere = [use for use in self.uses.used[name] if use[0] != number or use[1] is None]
                others = set().union(*(self.uses.live[n] for n in part.successors if n != target)) if len(part.successors) > 1 else set()
                if maker not in part.instructions or len(elsewhere) > 1 or phi in others:
                    continue
                if self.uses.last_use(phi, number) <= len(part.phis) + part.instructions.index(maker):
                    self.group[name] = phi

    def leader(self, name):
        return self.group.get(name, name)

    def give_registers(self):
        """Gives the few registers to the values that are used most, by a guess that a loop is run eight times."""
        weights = {}
        for name in self.uses.crossing:
            weight = sum(8 ** self.uses.depth[min(part, len(self.uses.depth) - 1)] for part, _, _ in self.uses.used[name])
            weights[self.leader(name)] = weights.get(self.leader(name), 0) + weight
        free = {False: ["B2", "B3", "B4", "B5"], True: ["X0"]}
        for name in sorted(weights, key=lambda name: (-weights[name], name)):
            maker = self.uses.maker.get(name)
            is_float = bool(maker and (maker.is_float or maker.operation in ("icmp", "fcmp")))
            if free[is_float]:
                register = free[is_float].pop(0)
                self.fixed[name] = Register(register[0], fixed=register)

    def register(self, name):
        return self.fixed.get(self.leader(name))

    def memory(self, name):
        """The word of a value."""
        name = self.leader(name)
        if name not in self.word:
            self.word[name] = Address("P" if name in self.uses.parameters else "V", offset=len(self.word) + 1)
        return self.word[name]


class Names:
    """The names of a deck for what is global in a function: its data, its constants, and the blocks that it branches to."""

    def __init__(self):
        self.known = {}

    def of(self, letter, name):
        names = self.known.setdefault(letter, {})
        return names.setdefault(name, f"{letter}.{len(names) + 1}")


class PartCode:
    """Makes the operations of a part."""

    def __init__(self, uses, homes, names, is_careful, part):
        self.uses, self.homes, self.names, self.is_careful, self.part = uses, homes, names, is_careful, part
        self.operations = []
        self.at = {}  # the register of each value that the part has met
        self.folded = {}  # the addresses that are worked out where they are used
        self.constants = {}  # registers of constants, by what makes them
        self.waiting = []  # values to be stored at the end of the part, for others
        self.entry = None

    def emit(self, pattern, *operands, result=None, bank="X", in_place=False):
        result = result or Register(bank)
        self.operations.append(Operation(pattern, [result], list(operands), in_place))
        return result

    # Operands

    def x(self, value):
        """The X register of a value."""
        if value.kind == "int":
            return self.constant(value.number)
        if value.kind == "float":
            return self.made_anew(f"SA{{r}} {self.names.of('C', value.name)}")
        if value.kind == "global":
            return self.made_anew(f"SX{{r}} {self.symbol(value)}")
        register = self.local(value.name)
        return register if register.bank == "X" else self.emit(copy_pattern("X", "B"), register)

    def b(self, value):
        """The B register of a value."""
        if value.kind == "local":
            register = self.local(value.name)
            return register if register.bank == "B" else self.emit(copy_pattern("B", "X"), register, bank="B")
        if value.kind == "int" and abs(value.number) < SHORT:
            return self.emit(f"SB{{r}} {value.number}", bank="B")
        return self.emit(copy_pattern("B", "X"), self.x(value), bank="B")

    def symbol(self, value):
        name = self.names.of("G", value.name)
        return f"{name}+{value.number}" if value.number else name

    def local(self, name):
        """The register of a value that a part knows or gets from where all parts find it."""
        if name in self.folded:
            return self.address_value(self.folded[name])
        if name not in self.at:
            self.at[name] = self.homes.register(name) or self.load(self.homes.memory(name))
        return self.at[name]

    def load(self, address):
        result = Register("X", memory=address if address.symbol in ("P", "V") else None)
        self.operations.append(Operation("SA{r} {address}", [result], address.registers(), address=address))
        return result

    def store(self, register, address, is_kept=False):
        if register.bank == "B":
            register = self.emit(copy_pattern("X", "B"), register)
        self.operations.append(Operation("SA{v} {address}", [], address.registers(), value=register, address=address, is_kept=is_kept))

    def constant(self, number):
        if 0 <= number and (number + 1) & number == 0 and number >= SHORT:
            ones = self.made_anew(f"MX{{r}} {max(1, WORD - number.bit_length())}")
            return self.emit("BX{r} -{a}", ones)
        if abs(number) < SHORT:
            return self.made_anew(f"SX{{r}} {number}" if number else "MX{r} 0")
        return self.made_anew(f"SA{{r}} {self.names.of('C', number)}")

    def made_anew(self, pattern):
        """A constant; the careful manner makes it once, and again where its register was taken."""
        if self.is_careful and pattern in self.constants:
            return self.constants[pattern]
        self.constants[pattern] = self.emit(pattern, result=Register("X", again=pattern if self.is_careful else ""))
        return self.constants[pattern]

    # Results

    def define(self, name, register):
        """Names a register by the value that it has, and puts it where other parts find it."""
        self.at[name] = register
        if name not in self.uses.crossing:
            return
        home = self.homes.register(name)
        if home:
            if home is not register:
                self.emit(copy_pattern(home.bank, register.bank), register, result=home)
            self.at[name] = home
        elif self.is_careful:
            self.waiting.append(name)
        else:
            self.keep(name)

    def keep(self, name):
        register, memory = self.at[name], self.homes.memory(name)
        if register.memory != memory:
            self.store(register, memory, is_kept=True)

    def home_of(self, name, bank):
        """The register that a result of a bank may be made in, if it has one in the whole function."""
        home = self.homes.register(name) if name in self.uses.crossing else None
        return home if home and home.bank == bank else None

    def is_index(self, name):
        users = [by.operation for _, _, by in self.uses.used.get(name, [])]
        home = self.homes.register(name)
        return "getelementptr" in users or bool(home and home.bank == "B" and name in self.uses.crossing)

    # Addresses

    def address(self, value):
        if value.kind == "global":
            return Address(self.names.of("G", value.name), offset=value.number)
        if value.kind != "local":
            return Address("M", offset=value.number)
        if value.name in self.folded:
            return self.folded[value.name]
        return Address(base=self.local(value.name))

    def address_value(self, address, name=""):
        """The address in a register."""
        home = self.home_of(name, "B")
        letter = "B" if home else "X"
        if address.base and not (address.symbol or address.offset or address.index):
            return address.base
        return self.emit(f"S{letter}{{r}} {address.pattern()}", *address.registers(), result=home, bank=letter)

    def do_alloca(self, this):
        self.folded[this.result] = Address(self.names.of("D", this.result))

    def do_getelementptr(self, this):
        offset, steps = this.detail
        address = self.address(this.operands[0])
        for index, step in zip(this.operands[1:], steps):
            address = self.indexed(address, index, step)
        address = self.moved(address, offset)
        if not self.is_careful:
            address = Address(base=self.address_value(address))
        if this.result in self.uses.crossing:
            self.define(this.result, self.address_value(address, this.result))
        else:
            self.folded[this.result] = address

    def moved(self, address, offset):
        """An address by a number of words further."""
        if not offset:
            return address
        if address.index:
            return Address(base=address.base, index=self.emit(f"SB{{r}} {{a}}{offset:+}", address.index, bank="B"))
        return dataclasses.replace(address, offset=address.offset + offset)

    def indexed(self, address, index, step):
        """An address by so many steps further."""
        if step == 1:
            register = self.b(index)
        else:
            register = self.emit(copy_pattern("B", "X"), self.times(self.x(index), step), bank="B")
        if address.symbol and not address.base:
            return dataclasses.replace(address, base=register)
        if address.symbol or address.offset or address.index:
            address = Address(base=self.address_value(address))
        return Address(base=address.base, index=register)

    # Integers

    def times(self, register, number):
        """The product of an integer and a constant."""
        if number == 1:
            return register
        exponent = exponent_of(Value("int", number=number))
        if exponent:
            return self.emit(f"LX{{r}} {exponent}", register, in_place=True)
        if self.is_careful and number in (3, 5, 9):
            shifted = self.emit(f"LX{{r}} {number.bit_length() - 1}", register, in_place=True)
            return self.emit("IX{r} {a}+{b}", shifted, register)
        return self.product(register, self.constant(number))

    def product(self, one, other):
        """The product of two integers: the low half of that of two floating numbers."""
        one = self.emit("PX{r} {a}", one)
        other = self.emit("PX{r} {a}", other)
        return self.emit("UX{r} {a}", self.emit("DX{r} {a}*{b}", one, other))

    def quotient(self, one, other):
        one, other = (self.emit("NX{r} {a}", self.emit("PX{r} {a}", operand)) for operand in (one, other))
        divided = self.emit("FX{r} {a}/{b}", one, other)
        return self.whole(divided)

    def whole(self, register):
        """The integer of a floating number."""
        result, exponent = Register("X"), Register("B")
        self.operations.append(Operation("UX{r} {s},{a}", [result, exponent], [register]))
        return self.emit("LX{r} {a},{b}", exponent, result)

    def do_add(self, this, sign=1):
        one, other = this.operands
        if one.kind == "int" and sign == 1:
            one, other = other, one
        if other.kind == "int" and abs(other.number) < SHORT and self.is_index(this.result) and one.kind == "local":
            home = self.home_of(this.result, "B")
            letter, number = "B" if home else "X", sign * other.number
            text = {1: "{a}+{b}", -1: "{a}-{b}"}.get(number)
            register = self.local(one.name)
            if text and (number == 1 or register.bank == "B"):
                result = self.emit(f"S{letter}{{r}} {text}", register, ONE, result=home, bank=letter)
            else:
                result = self.emit(f"S{letter}{{r}} {{a}}{number:+}", register, result=home, bank=letter)
        else:
            result = self.emit("IX{r} {a}" + "-+"[sign == 1] + "{b}", self.x(one), self.x(other))
        self.define(this.result, result)

    def do_sub(self, this):
        self.do_add(this, sign=-1)

    def do_mul(self, this):
        one, other = this.operands
        if one.kind == "int":
            one, other = other, one
        self.define(this.result, self.times(self.x(one), other.number) if other.kind == "int" else self.product(self.x(one), self.x(other)))

    def divided(self, this):
        one, other = this.operands
        exponent = exponent_of(other)
        if exponent is not None:
            return self.emit(f"AX{{r}} {exponent}", self.x(one), in_place=True)
        return self.quotient(self.x(one), self.x(other))

    def do_sdiv(self, this):
        self.define(this.result, self.divided(this))

    def do_srem(self, this):
        one, other = this.operands
        exponent = exponent_of(other)
        if exponent is not None:
            return self.define(this.result, self.masked(self.x(one), exponent))
        whole = self.product(self.divided(this), self.x(other))
        self.define(this.result, self.emit("IX{r} {a}-{b}", self.x(one), whole))

    do_udiv, do_urem = do_sdiv, do_srem

    def masked(self, register, bits):
        """The last bits of a word."""
        if not 0 < bits < WORD:
            return register
        return self.emit("BX{r} -{b}*{a}", register, self.made_anew(f"MX{{r}} {WORD - bits}"))

    def do_and(self, this):
        one, other = this.operands
        if other.kind == "int" and other.number > 0 and other.number & (other.number + 1) == 0:
            return self.define(this.result, self.masked(self.x(one), other.number.bit_length()))
        self.define(this.result, self.emit("BX{r} {a}*{b}", self.x(one), self.x(other)))

    def do_or(self, this):
        self.define(this.result, self.emit("BX{r} {a}+{b}", *map(self.x, this.operands)))

    def do_xor(self, this):
        one, other = this.operands
        if other.kind == "int" and (other.number == -1 or this.bits == 1):
            return self.define(this.result, self.emit("BX{r} -{a}", self.x(one)))
        self.define(this.result, self.emit("BX{r} {a}-{b}", self.x(one), self.x(other)))

    def shifted(self, this, letter):
        one, other = this.operands
        if other.kind == "int":
            result = self.emit(f"{letter}X{{r}} {other.number}", self.x(one), in_place=True) if other.number else self.x(one)
        else:
            result = self.emit(letter + "X{r} {a},{b}", self.b(other), self.x(one))
        self.define(this.result, result)

    def do_shl(self, this):
        self.shifted(this, "L")

    def do_lshr(self, this):
        self.shifted(this, "A")

    do_ashr = do_lshr

    # Truth values

    def sign(self, register):
        return self.emit("AX{r} 59", register, in_place=True)

    def compared(self, kind, one, other, letter):
        """A word of ones if two values have a relation, else of zeros."""
        difference = letter + "X{r} {a}-{b}"
        if kind in ("lt", "ge"):
            result = self.sign(self.emit(difference, self.x(one), self.x(other)))
        elif kind in ("gt", "le"):
            result = self.sign(self.emit(difference, self.x(other), self.x(one)))
        else:
            one, other = self.x(one), self.x(other)
            both = [self.emit(difference, one, other), self.emit(difference, other, one)]
            result = self.sign(self.emit("BX{r} {a}+{b}", *both))
        return self.emit("BX{r} -{a}", result) if kind in ("ge", "le", "eq") else result

    def is_fused(self, this):
        """Whether a comparison is only the condition of the branch that ends the part."""
        users = self.uses.used.get(this.result, [])
        return len(users) == 1 and users[0][2] is self.part.end and self.part.end.operation == "br" and users[0][0] == self.part.number

    def do_icmp(self, this, letter="I"):
        if not self.is_fused(this):
            self.define(this.result, self.compared(relation(this.detail), *this.operands, letter))

    def do_fcmp(self, this):
        self.do_icmp(this, letter="F")

    def chosen(self, mask, one, other):
        """The first where the mask has ones, the second where it has zeros."""
        return self.emit("BX{r} {a}+{b}", self.emit("BX{r} {a}*{b}", mask, one), self.emit("BX{r} -{b}*{a}", other, mask))

    def do_select(self, this):
        self.define(this.result, self.chosen(*map(self.x, this.operands)))

    # Floating point

    def normalised(self, pattern, one, other):
        return self.emit("NX{r} {a}", self.emit(pattern, one, other))

    def floating(self, sign):
        """The instruction of an operation on floating numbers, which the careful manner rounds."""
        return ("R" if self.is_careful else "F") + "X{r} {a}" + sign + "{b}"

    def do_fadd(self, this):
        self.define(this.result, self.normalised(self.floating("+"), *map(self.x, this.operands)))

    def do_fsub(self, this):
        self.define(this.result, self.normalised(self.floating("-"), *map(self.x, this.operands)))

    def do_fmul(self, this):
        self.define(this.result, self.emit(self.floating("*"), *map(self.x, this.operands)))

    def do_fdiv(self, this):
        self.define(this.result, self.emit(self.floating("/"), *map(self.x, this.operands)))

    def do_fneg(self, this):
        self.define(this.result, self.emit("BX{r} -{a}", self.x(this.operands[0])))

    # Conversions

    def same(self, this):
        """A result that is its operand, in the same word."""
        value = this.operands[0]
        if value.kind == "local" and value.name in self.folded and this.result not in self.uses.crossing:
            self.folded[this.result] = self.folded[value.name]
        else:
            self.define(this.result, self.local(value.name) if value.kind == "local" else self.x(value))

    do_freeze = do_bitcast = do_ptrtoint = do_inttoptr = do_fpext = do_fptrunc = do_extractvalue = same

    def do_zext(self, this):
        if this.operands[0].bits == 1:
            return self.define(this.result, self.emit("BX{r} {a}*{b}", self.x(this.operands[0]), self.constant(1)))
        self.same(this)

    def do_sext(self, this):
        bits = this.operands[0].bits
        if bits in (1, 32):
            return self.same(this)
        left = self.emit(f"LX{{r}} {WORD - bits}", self.x(this.operands[0]), in_place=True)
        self.define(this.result, self.emit(f"AX{{r}} {WORD - bits}", left, in_place=True))

    def do_trunc(self, this):
        bits = this.detail[1][1]
        if bits == 1:
            return self.define(this.result, self.sign(self.emit("LX{r} 59", self.x(this.operands[0]), in_place=True)))
        if bits >= 32:
            return self.same(this)
        self.define(this.result, self.masked(self.x(this.operands[0]), bits))

    def do_sitofp(self, this):
        self.define(this.result, self.emit("NX{r} {a}", self.emit("PX{r} {a}", self.x(this.operands[0]))))

    def do_fptosi(self, this):
        self.define(this.result, self.whole(self.x(this.operands[0])))

    do_uitofp, do_fptoui = do_sitofp, do_fptosi

    # Memory and calls

    def do_load(self, this):
        self.define(this.result, self.load(self.address(this.operands[0])))

    def do_store(self, this):
        register = self.x(this.operands[0])
        self.store(register, self.address(this.operands[1]))

    def do_call(self, this):
        """A function that is a few instructions."""
        operands, name = this.operands, this.detail.split(".")[1]
        if name in ("fabs", "abs"):
            register = self.x(operands[0])
            result = self.emit("BX{r} {a}-{b}", register, self.sign(register))
        elif name == "ctpop":
            result = self.emit("CX{r} {a}", self.x(operands[0]))
        elif name == "fmuladd":
            one, other, more = map(self.x, operands)
            result = self.normalised("FX{r} {a}+{b}", self.emit("FX{r} {a}*{b}", one, other), more)
        elif name == "fshl":
            if operands[2].kind != "int":
                raise Unsupported("a rotation by no constant")
            result = self.emit(f"LX{{r}} {operands[2].number}", self.x(operands[0]), in_place=True)
        else:
            one, other = map(self.x, operands[:2])
            below = self.sign(self.emit("IX{r} {a}-{b}", one, other))
            result = self.chosen(below, one, other) if name.endswith("min") else self.chosen(below, other, one)
        self.define(this.result, result)

    # Ends

    def end(self, pattern, *operands, value=None):
        self.operations.append(Operation(pattern, [], list(operands), value=value, is_end=True))

    def target(self, number):
        return self.names.of("L", number)

    def condition(self):
        """The pattern of the branch that ends the part, to which a label is added, and its operands."""
        value = self.part.end.operands[0]
        maker = self.uses.maker.get(value.name)
        if maker not in self.part.instructions or maker.operation not in ("icmp", "fcmp") or not self.is_fused(maker):
            return "NG {a}", [self.x(value)]
        kind = relation(maker.detail)
        one, other = maker.operands
        if self.is_careful and maker.operation == "icmp" and self.in_b(one) and self.in_b(other):
            return self.compared_in_b(kind, one, other)
        if kind in ("gt", "le"):
            one, other = other, one
        letter = "I" if maker.operation == "icmp" else "F"
        is_zero = other.kind in ("int", "float") and other.number == 0 and other.name in ("", "0", "0.000000e+00")
        register = self.x(one) if is_zero else self.emit(letter + "X{r} {a}-{b}", self.x(one), self.x(other))
        return {"eq": "ZR {a}", "ne": "NZ {a}", "lt": "NG {a}", "gt": "NG {a}", "ge": "PL {a}", "le": "PL {a}"}.get(kind, "OR {a}"), [register]

    def in_b(self, value):
        """Whether a value has a B register that no move before the branch writes."""
        home = self.homes.register(value.name) if value.kind == "local" and value.name in self.uses.crossing else None
        if value.kind == "int":
            return value.number in (0, 1)
        return bool(home and home.bank == "B" and not any(self.homes.register(phi) is home for _, phi, _ in self.moves()))

    def compared_in_b(self, kind, one, other):
        if kind in ("gt", "le"):
            one, other = other, one
        word = {"eq": "EQ", "ne": "NE", "lt": "LT", "gt": "LT"}.get(kind, "GE")
        names = ["{a}" if value.kind == "local" else f"B{value.number}" for value in (one, other)]
        locals_ = [self.local(value.name) for value in (one, other) if value.kind == "local"]
        if names == ["{a}", "{a}"]:
            names[1] = "{b}"
        return f"{word} {names[0]},{names[1]}", locals_

    def moves(self):
        """What the values at the begin of the next parts get, where it isn't there already and no other part needs the old."""
        found = []
        for target, phi, value in self.uses.incoming.get(self.part.number, []):
            others = [self.uses.live[n] for n in self.part.successors if n != target]
            if phi in self.uses.crossing and self.homes.leader(value.name) != phi and not any(phi in live for live in others):
                found.append((target, phi, value))
        return found

    def make_moves(self):
        moves = [(phi, self.x(value) if value.kind != "local" else self.local(value.name)) for _, phi, value in self.moves()]
        written = [self.homes.register(phi) for phi, _ in moves]
        moves = [(phi, self.emit(copy_pattern("X", register.bank), register) if register in written else register) for phi, register in moves]
        for phi, register in moves:
            home = self.homes.register(phi)
            if home:
                self.emit(copy_pattern(home.bank, register.bank), register, result=home)
            else:
                self.store(register, self.homes.memory(phi))

    def make_end(self):
        this = self.part.end
        for name in self.waiting:
            self.keep(name)
        if is_call(this):
            for n, value in enumerate(this.operands):
                self.store(self.x(value), Address("Q", offset=n + 1))
            self.end("RJ " + self.names.of("F", this.detail))
        elif this.operation == "br" and this.operands:
            pattern, operands = self.condition()
            self.make_moves()
            self.end(f"{pattern},{self.target(this.detail[0])}", *operands)
        elif this.operation == "br":
            self.make_moves()
            self.end("EQ " + self.target(this.detail[0]))
        elif this.operation == "switch":
            index = self.b(this.operands[0])
            self.make_moves()
            self.end("JP {a}+" + self.names.of("T", self.part.number), index)
        elif this.operands:
            self.end("EQ RETURN", value=self.x(this.operands[0]))
        else:
            self.end("EQ RETURN")

    def fetch_parameters(self):
        """Loads the parameters that have registers in the whole function."""
        for name in sorted(self.uses.parameters & self.uses.crossing):
            if self.homes.register(name):
                self.define(name, self.load(self.homes.memory(name)))

    def make(self):
        """The operations of the part."""
        if self.part.number == 0:
            self.fetch_parameters()
        if self.part.entry:
            self.entry = Register("X")
            self.define(self.part.entry, self.entry)
        for this in self.part.instructions:
            if not this.result or this.result in self.uses.used:
                getattr(self, "do_" + this.operation, self.unknown)(this)
        self.make_end()
        return self.operations

    def unknown(self, this):
        raise Unsupported(this.operation)


ONE = Register("B", fixed="B1")
