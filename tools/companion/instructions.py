"""The instructions of the F8 by their opcodes: names, operands, and where they lead."""
from __future__ import annotations

from dataclasses import dataclass
from enum import Enum

ADDRESSES = 65_536


class Operand(Enum):
    """What stands behind an opcode, with the number of its bytes."""
    NONE = 'none'
    BYTE = 'byte'
    PORT = 'port'
    OFFSET = 'offset'  # of a branch, counted from its own byte
    ADDRESS = 'address'

    @property
    def size(self) -> int:
        return {Operand.NONE: 0, Operand.ADDRESS: 2}.get(self, 1)


class Flow(Enum):
    """Where the program goes on behind an instruction."""
    NEXT = 'next'
    BRANCH = 'branch'  # to its target or to the next one
    JUMP = 'jump'  # to its target
    CALL = 'call'  # to its target, with the next address in the stack register
    CALL_K = 'call by K'  # to the address in K, with the next one in the stack register
    JUMP_Q = 'jump by Q'  # to the address in Q
    RETURN = 'return'  # to the address in the stack register
    NOWHERE = 'nowhere'  # the opcode belongs to no instruction


@dataclass(frozen=True)
class Opcode:
    """An opcode: its name with the fields that are in it, as `dis` writes it."""
    code: int
    name: str
    operand: Operand = Operand.NONE
    flow: Flow = Flow.NEXT

    @property
    def size(self) -> int:
        return 1 + self.operand.size

    @property
    def is_reserved(self) -> bool:
        return self.flow is Flow.NOWHERE

    @property
    def usual(self) -> str:
        """The name by which people know it: a branch's own."""
        return BRANCHES.get(self.code, self.name)


RESERVED = frozenset({0x2D, 0x2E, 0x2F, 0x3F, 0x4F, 0x5F, 0xA2, 0xA3, 0xB2, 0xB3, 0xCF, 0xDF, 0xEF, 0xFF})
BRANCHES = {0x81: 'BP', 0x82: 'BC', 0x84: 'BZ', 0x90: 'BR', 0x91: 'BM', 0x92: 'BNC', 0x94: 'BNZ', 0x98: 'BNO'}
# The opcodes below 30 in their order.
PLAIN = '''LR A,KU|LR A,KL|LR A,QU|LR A,QL|LR KU,A|LR KL,A|LR QU,A|LR QL,A
|LR K,P|LR P,K|LR A,IS|LR IS,A|PK|LR P0,Q|LR Q,DC|LR DC,Q
|LR DC,H|LR H,DC|SR 1|SL 1|SR 4|SL 4|LM|ST|COM|LNK|DI|EI|POP|LR W,J|LR J,W|INC
|LI|NI|OI|XI|AI|CI|IN|OUT|PI|JMP|DCI|NOP|XDC'''.replace('\n', '').split('|')
MEMORY = 'AM AMD NM OM XM CM ADC'.split()  # from 88 on
# By the high half of the opcode; the low half is a register or a number.
ROWS = {0x3: 'DS {r}', 0x4: 'LR A,{r}', 0x5: 'LR {r},A', 0x7: 'LIS {n}', 0xA: 'INS {n}', 0xB: 'OUTS {n}', 0xC: 'AS {r}', 0xD: 'ASD {r}',
        0xE: 'XS {r}', 0xF: 'NS {r}'}
OPERANDS = {**dict.fromkeys(range(0x20, 0x26), Operand.BYTE), **dict.fromkeys((0x26, 0x27), Operand.PORT),
            **dict.fromkeys((0x28, 0x29, 0x2A), Operand.ADDRESS), **dict.fromkeys((*range(0x80, 0x88), *range(0x8F, 0xA0)), Operand.OFFSET)}
FLOWS = {0x0C: Flow.CALL_K, 0x0D: Flow.JUMP_Q, 0x1C: Flow.RETURN, 0x28: Flow.CALL, 0x29: Flow.JUMP, 0x90: Flow.JUMP,
         **dict.fromkeys((*range(0x81, 0x88), *range(0x91, 0xA0), 0x8F), Flow.BRANCH)}


def opcode_of(code: int) -> Opcode:
    """The opcode with this byte; the table OPCODES has all of them."""
    high, low = code >> 4, code & 15
    operand, flow = OPERANDS.get(code, Operand.NONE), FLOWS.get(code, Flow.NEXT)
    if code in RESERVED:
        return Opcode(code, f'reserved {code:02X}', flow=Flow.NOWHERE)
    if code < len(PLAIN):
        return Opcode(code, PLAIN[code], operand, flow)
    if high == 0x6:
        return Opcode(code, f'{"LISL" if low > 7 else "LISU"} {low & 7}')
    if code == 0x8F:
        return Opcode(code, 'BR7', operand, flow)
    if high in (0x8, 0x9) and operand is Operand.OFFSET:
        return Opcode(code, f'{"BT" if high == 0x8 else "BF"} {low}', operand, flow)
    if high == 0x8:
        return Opcode(code, MEMORY[low - 8], operand, flow)
    return Opcode(code, ROWS[high].format(r={12: 'S', 13: 'I', 14: 'D'}.get(low, low), n=low), operand, flow)


OPCODES = tuple(opcode_of(code) for code in range(256))


def signed(byte: int) -> int:
    return byte - 256 if byte > 127 else byte


@dataclass(frozen=True)
class Instruction:
    """An instruction at its address. The bytes of its operand may be wanting, where memory ends before them."""
    address: int
    opcode: Opcode
    operand: bytes

    @property
    def is_whole(self) -> bool:
        return len(self.operand) == self.opcode.operand.size

    @property
    def size(self) -> int:
        return 1 + len(self.operand)

    @property
    def bytes(self) -> bytes:
        return bytes([self.opcode.code]) + self.operand

    @property
    def next(self) -> int:
        return (self.address + self.opcode.size) % ADDRESSES

    @property
    def target(self) -> int | None:
        """The address that the operand names: of a branch, a jump, a call, or DCI."""
        if not self.is_whole:
            return None
        if self.opcode.operand is Operand.OFFSET:
            return (self.address + 1 + signed(self.operand[0])) % ADDRESSES
        if self.opcode.operand is Operand.ADDRESS:
            return int.from_bytes(self.operand, 'big')
        return None

    def text(self, name: str | None = None) -> str:
        """The statement, with a branch's usual name, and with a name in place of its target where one is given."""
        usual = self.opcode.usual
        if self.opcode.is_reserved or not self.operand or not self.is_whole:
            return usual
        gap = ',' if self.opcode.operand is Operand.OFFSET and ' ' in usual else ' '
        digits = f'${self.target:04X}' if self.target is not None else '$' + self.operand.hex().upper()
        return f'{usual}{gap}{name or digits}'


def decode(data: bytes, address: int = 0) -> Instruction:
    """The instruction whose first byte is that of data, which has at least one."""
    opcode = OPCODES[data[0]]
    return Instruction(address, opcode, bytes(data[1:opcode.size]))


def decoded(memory: dict[int, int], address: int) -> Instruction | None:
    """The instruction at an address of a memory, or None where the memory has no byte there."""
    if address not in memory:
        return None
    opcode = OPCODES[memory[address]]
    found = bytearray([opcode.code])
    while len(found) < opcode.size and (at := (address + len(found)) % ADDRESSES) in memory:
        found.append(memory[at])
    return Instruction(address, opcode, bytes(found[1:]))
