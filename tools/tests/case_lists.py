"""Lists of cases whose lines were worked out by hand, programs for which `case_search` finds lists, lists over all instructions, and
changes of lists."""
from __future__ import annotations

from random import Random
from typing import Callable, Iterator, NamedTuple, Sequence

from cased import C, D0, D1, FACTS, ISAR, NUMBERS, STATUS, START, BIT, Entry, Judge, Values
from case_search import searched
from companion.domain import REGISTERS, Part
from companion.instructions import OPCODES, Opcode, Operand
from random_cartridges import described

PSU = '[[chip]]\nkind = "3851"\nbase = {base}\nports = {ports}\n{keys}rom = "{rom}"\n'
RAM = '[[chip]]\nkind = "3853"\npages = ["ram 28"]\n'
ROM_TOO = '[[chip]]\nkind = "3853"\npages = ["rom 28"]\n'
WRITTEN_VECTOR = '[[chip]]\nkind = "3853"\ninterrupt = true\n'
WIRED = 'vector = 0x0100\ninterrupt = true\n'


def psu(code: dict[int, str] | str, keys: str = '', more: str = '', base: int = 0) -> str:
    """The description of a 3851 with code by its addresses, and of further chips."""
    rom = bytearray(b'\xFF' * 1024)
    for at, digits in ({0: code} if isinstance(code, str) else code).items():
        part = bytes.fromhex(digits)
        rom[at - base:at - base + len(part)] = part
    return 'format = 2\n' + PSU.format(base=base, ports=4, keys=keys, rom=rom.hex()) + more


def status(word: str) -> dict[str, list[bool] | None]:
    return {Part(part).name: None if bit == '-' else [bit == '1'] for part, bit in zip(STATUS, word)}


def facts(word: str) -> dict[str, list[bool] | None]:
    return {Part(part).name: [True] if bit == '1' else None for part, bit in zip(FACTS, word)}


def entry(at: int, ret: int | None = None, same: int | None = None, W: str = '00000', F: str = '0000',
          **parts: Sequence[int] | None) -> Entry:
    """An entry as reset leaves the F8, but for what is given: W and the facts as a list has them, and the values of parts."""
    return START._replace(at=at, ret=ret, same=same).changed(**status(W), **facts(F), **parts)


class Worked(NamedTuple):
    """A list for a description, and the line that `confirm` writes."""
    cart: str
    entries: list[Entry]
    line: str


# LIS 1; NOP; BR to the NOP
LOOP = psu('712B90FE')
OF_LOOP = [entry(0), entry(1, A=[1]), entry(2, A=[1])]


def of_loop() -> Iterator[Worked]:
    yield Worked(LOOP, OF_LOOP, 'whole 3')
    yield Worked(LOOP, OF_LOOP[1:], 'notclosed start to 0000 ---- .')
    yield Worked(LOOP, OF_LOOP[:1], 'notclosed 2 to 0001 ---- .')
    yield Worked(LOOP, OF_LOOP[:2], 'notclosed 3 to 0002 ---- .')
    yield Worked(LOOP, [OF_LOOP[0], OF_LOOP[2]], 'notclosed 2 to 0001 ---- .')
    for narrow in (dict(A=[0]), dict(ISAR=range(63)), dict(W='10000'), dict(W='00001'), dict(D0=[1]), dict(D1=[1]), dict(C=[0]),
                   dict(F='1000'), dict(F='0100'), dict(F='0010'), dict(F='0001'), dict(same=0), dict(R63=range(16)), dict(ret=0)):
        yield Worked(LOOP, [entry(0, **narrow), *OF_LOOP[1:]], 'notclosed start to 0000 ---- .')
    behind = [given.changed(**status('-----'), D0=None, D1=None) for given in OF_LOOP[1:]]
    for wide in (dict(W='-----'), dict(D0=None), dict(D0=range(512)), dict(D1=[0, 0xFFFF])):
        yield Worked(LOOP, [entry(0, **wide), *behind], 'whole 3')


# INS 0; BZ; LIS 1 or LIS 2; LR 0,A; BR .
TWO_WAYS = psu('A0' '8404' '71' '9002' '72' '50' '90FF')


def of_two_ways(last: Entry = entry(8, W='-0-00', A=[1, 2], R0=[1, 2]), met: Sequence[int] = (1, 2)) -> list[Entry]:
    sides = [entry(3, W='-0-00'), entry(4, W='-0-00', A=[1]), entry(6, W='-0-00')]
    return [entry(0), entry(1, W='-0-00'), *sides, entry(7, W='-0-00', A=met), last]


def of_values() -> Iterator[Worked]:
    """Two ways give A one of two values, and register 0 has it then."""
    yield Worked(TWO_WAYS, of_two_ways(), 'whole 7')
    yield Worked(TWO_WAYS, of_two_ways(entry(8, W='-0-00', A=[1, 2], R0=[1, 2], same=0)), 'whole 7')
    yield Worked(TWO_WAYS, of_two_ways(met=[1]), 'notclosed 6 to 0007 ---- .')
    yield Worked(TWO_WAYS, of_two_ways(met=[2]), 'notclosed 5 to 0007 ---- .')
    yield Worked(TWO_WAYS, of_two_ways(met=[1, 2, 3]), 'notclosed 7 to 0008 ---- .')
    for narrow in (dict(A=[2], R0=[1, 2]), dict(A=[1, 2], R0=[1]), dict(A=[1, 2], R0=[1, 2], same=1), dict(A=[1, 2], R0=[1, 2], ISAR=[0])):
        yield Worked(TWO_WAYS, of_two_ways(entry(8, W='-0-00', **narrow)), 'notclosed 7 to 0008 ---- .')
    yield Worked(TWO_WAYS, of_two_ways(entry(8, W='-0000', A=[1, 2], R0=[1, 2])), 'notclosed 7 to 0008 ---- .')
    apart = [entry(8, W='-0-00', A=[value], R0=[value], same=0) for value in (1, 2)]
    yield Worked(TWO_WAYS, [*of_two_ways(apart[0]), apart[1]], 'whole 8')
    branch = of_two_ways()
    yield Worked(TWO_WAYS, [*branch[:2], entry(3, W='-0000'), entry(4, W='-0000', A=[1]), entry(6, W='-0100'), *branch[5:]], 'whole 7')


# Two calls of a routine that keeps its return in K and calls another one: PI 10; PI 10; BR .; LR K,P; PI 20; PK; POP. Or with LR P,K; POP.
CALLS = psu({0: '280010' '280010' '90FF', 0x10: '08' '280020' '0C', 0x20: '1C'})
CALLS_BY_P = psu({0: '280010' '280010' '90FF', 0x10: '08' '280020' '09' '1C', 0x20: '1C'})


def of_callers(lows: Sequence[int] | None = (3, 6), inner: Sequence[int] | None = (3, 6)) -> list[Entry]:
    back = [entry(at, 0x15, A=[0], R12=[0], R13=[at]) for at in (3, 6)]
    begun = [entry(0x10, ret, A=[0]) for ret in (3, 6)] + [entry(0x11, ret, A=[0], R12=[0], R13=[ret]) for ret in (3, 6)]
    return [entry(0), *back, *begun, entry(0x14, 0x14, A=[0], R12=[0], R13=lows), entry(0x20, 0x14, A=[0], R12=[0], R13=inner)]


def of_callers_by_p() -> list[Entry]:
    back = [entry(at, at, A=[0], R12=[0], R13=[at]) for at in (3, 6)] + [entry(0x15, ret, A=[0], R12=[0], R13=[ret]) for ret in (3, 6)]
    return [entry(0), *back, *(given for given in of_callers() if given.ret != 0x15 and given.at)]


def of_calls() -> Iterator[Worked]:
    """Two callers, to both of which the routine returns."""
    yield Worked(CALLS, of_callers(), 'whole 9')
    yield Worked(CALLS, of_callers(lows=[3]), 'notclosed 10 to 0014 0014 .')
    yield Worked(CALLS, of_callers([3], [3]), 'notclosed 8 to 0020 0014 .')
    yield Worked(CALLS, of_callers(lows=None), 'notclosed 9 to 0000 0015 .')
    yield Worked(CALLS, [given for given in of_callers() if given.at != 6], 'notclosed 8 to 0006 0015 .')
    yield Worked(CALLS, [given for given in of_callers() if given.at not in (3, 6)], 'notclosed 7 to 0003 0015 .')
    yield Worked(CALLS_BY_P, of_callers_by_p(), 'whole 11')
    yield Worked(CALLS_BY_P, [given for given in of_callers_by_p() if (given.at, given.ret) != (0x15, 6)], 'notclosed 9 to 0015 0006 .')
    wide = [given.changed(R12=None, R13=None) if given.at in (0x14, 0x20) else given for given in of_callers()]
    yield Worked(CALLS, wide, 'unsafe 9 4')
    yield Worked(CALLS_BY_P, [given.changed(R12=None) if given.at in (0x14, 0x20) else given for given in of_callers_by_p()],
                 'notclosed 9 to 0015 0103 .')


# LIS 1; LR 3,A; LIS 2; LR 5,A; LISU 0; LISL 3; INS 0; BZ; LISL 5; LIS 7; LR S,A; BR .
BY_ISAR = psu('7153' '7255' '606B' 'A0' '8402' '6D' '77' '5C' '90FF')


def of_isar_list(*last: Entry) -> list[Entry]:
    known = dict(R3=[1], R5=[2])
    set_up = [entry(0), entry(1, A=[1]), entry(2, A=[1], R3=[1]), entry(3, A=[2], R3=[1]), entry(4, A=[2], **known),
              entry(5, A=[2], ISAR=range(8), **known), entry(6, A=[2], ISAR=[3], **known)]
    met = [entry(7, W='-0-00', ISAR=[3], **known), entry(9, W='-0-00', ISAR=[3], **known), entry(10, W='-0-00', ISAR=[3, 5], **known)]
    return [*set_up, *met, entry(11, A=[7], W='-0-00', ISAR=[3, 5], **known), *last]


def of_isar() -> Iterator[Worked]:
    """A register is written by an ISAR that has one of two numbers."""
    yield Worked(BY_ISAR, of_isar_list(entry(12, A=[7], W='-0-00', ISAR=[3, 5], R3=[1, 7], R5=[2, 7])), 'whole 12')
    apart = [entry(12, A=[7], W='-0-00', ISAR=[3], R3=[7], R5=[2], same=3), entry(12, A=[7], W='-0-00', ISAR=[5], R3=[1], R5=[7], same=5)]
    yield Worked(BY_ISAR, of_isar_list(*apart), 'whole 13')
    for third, fifth in (([1], [2, 7]), ([1, 7], [2]), ([7], [2, 7]), ([1, 7], [7]), ([1], [2])):
        last = entry(12, A=[7], W='-0-00', ISAR=[3, 5], R3=third, R5=fifth)
        yield Worked(BY_ISAR, of_isar_list(last), 'notclosed 12 to 000C ---- .')


# INS 0; CI 9; BNZ to 0009; LR KL,A; CLR; LR KU,A; PK; BR .
KEYS = psu('A0' '2509' '9405' '05' '70' '04' '0C' '90FF')


def of_keys() -> Iterator[Worked]:
    """Behind CI 9 an entry of its own for zero 1, in which A is 9."""
    ways = [entry(9, W='--0-0'), entry(9, 9, W='11100', A=[0], R12=[0], R13=[9])]
    equal = [entry(5, W='11100', A=[9]), entry(6, W='11100', A=[9], R13=[9]), entry(7, W='11100', A=[0], R13=[9]),
             entry(8, W='11100', A=[0], R12=[0], R13=[9])]
    behind = [entry(3, W='--0-0'), entry(3, W='11100', A=[9])]
    yield Worked(KEYS, [entry(0), entry(1, W='-0-00'), *behind, *equal, *ways], 'whole 10')
    yield Worked(KEYS, [entry(0), entry(1, W='-0-00'), *behind[:1], *equal, *ways], 'notclosed 3 to 0003 ---- .')
    yield Worked(KEYS, [entry(0), entry(1, W='-0-00'), *behind[1:], *equal, *ways], 'notclosed 3 to 0003 ---- .')
    yield Worked(KEYS, [entry(0), entry(1, W='-0-00'), entry(3, W='----0'), *equal, *ways], 'notclosed 4 to 0005 ---- .')
    yield Worked(KEYS, [entry(0), entry(1, W='-0-00'), *behind, *equal, *ways[:1]], 'notclosed 9 to 0009 0009 .')


# ---- entries to which no run comes, at 0010; BR . is at 0000 and 0030, and where it is said

AT = 0x10
BR_SELF = '90FF'


def lone(code: str, *entries: Entry, keys: str = '', more: str = '') -> tuple[str, list[Entry]]:
    """An instruction at 0010 with BR . behind it, and the entries there and behind it."""
    return psu({0: BR_SELF, AT: code + BR_SELF, 0x30: BR_SELF}, keys, more), [entry(0), *entries]


def of_same() -> Iterator[Worked]:
    """A and a register that are the same."""
    inc, copy, compare, load = '1F', '53', '2509', '43'
    yield Worked(*lone(copy, entry(AT, same=5), entry(AT + 1, same=3)), 'whole 3')
    yield Worked(*lone(copy, entry(AT, same=5), entry(AT + 1, same=5)), 'notclosed 3 to 0011 ---- .')
    yield Worked(*lone(copy, entry(AT, A=[5], R5=[5]), entry(AT + 1, same=5)), 'whole 3')
    yield Worked(*lone(copy, entry(AT, A=[5, 6], R5=[5, 6]), entry(AT + 1, same=5)), 'notclosed 3 to 0011 ---- .')
    yield Worked(*lone(inc, entry(AT, same=3), entry(AT + 1, W='-----', same=3)), 'notclosed 3 to 0011 ---- .')
    yield Worked(*lone(inc, entry(AT, same=3), entry(AT + 1, W='-----')), 'whole 3')
    yield Worked(*lone('34', entry(AT, same=3), entry(AT + 1, W='-----', same=3)), 'whole 3')  # DS 4
    yield Worked(*lone('33', entry(AT, same=3), entry(AT + 1, W='-----', same=3)), 'notclosed 3 to 0011 ---- .')
    yield Worked(*lone('3C', entry(AT, ISAR=[4, 5], same=3), entry(AT + 1, ISAR=[4, 5], W='-----', same=3)), 'whole 3')  # DS S
    yield Worked(*lone('3C', entry(AT, ISAR=[3, 5], same=3), entry(AT + 1, ISAR=[3, 5], W='-----', same=3)), 'notclosed 3 to 0011 ---- .')
    # The byte of one that is known is the other's, where that is read.
    yield Worked(*lone(compare, entry(AT, same=3, R3=[5]), entry(AT + 2, W='11000', A=[5], R3=[5])), 'whole 3')
    yield Worked(*lone(load, entry(AT, same=3, A=[7]), entry(AT + 1, A=[7], R3=[7], same=3)), 'whole 3')
    yield Worked(*lone(inc, entry(AT, same=3, A=[1], R3=[2])), 'whole 2')
    yield Worked(*lone('2B', entry(AT, same=3, A=[1], R3=[2])), 'notclosed 3 to 0011 ---- .')  # NOP
    # DS 3 gives register 3 a value, and leaves A as it was.
    yield Worked(*lone('33', entry(AT, same=3, R3=[2, 3]), entry(AT + 1, W='-----', A=[2, 3])), 'notclosed 3 to 0011 ---- .')
    yield Worked(*lone('33', entry(AT, same=3, R3=[2, 3]), entry(AT + 1, W='11000', R3=[1, 2])), 'whole 3')
    # XS 3 of what is the same is 0.
    yield Worked(*lone('E3', entry(AT, same=3), entry(AT + 1, W='10100', A=[0])), 'whole 3')
    yield Worked(*lone('E3', entry(AT), entry(AT + 1, W='10100', A=[0])), 'notclosed 3 to 0011 ---- .')


def of_counters() -> Iterator[Worked]:
    """D0, D1 and c."""
    xdc, adc, load, q_from_d0 = '2C', '8E', '0F', '0E'
    yield Worked(*lone(xdc, entry(AT, D0=[1, 2], D1=[9], F='1001'), entry(AT + 1, D0=[9], D1=[1, 2], F='0110')), 'whole 3')
    for narrow in (dict(D0=[9], D1=[1]), dict(D0=[1, 2], D1=[9]), dict(D0=[9], D1=[1, 2], F='1000'), dict(D0=[9], D1=[1, 2], F='0001')):
        yield Worked(*lone(xdc, entry(AT, D0=[1, 2], D1=[9], F='1001'), entry(AT + 1, **narrow)), 'notclosed 3 to 0011 ---- .')
    # Where p0 holds c goes with D0, and is known where D0 is.
    moved = entry(AT + 1, A=[1], D0=[0x11, 0x21], C=[0x11, 0x21], F='1010')
    yield Worked(*lone(adc, entry(AT, A=[1], D0=[0x10, 0x20], F='1010'), moved), 'whole 3')
    yield Worked(*lone(adc, entry(AT, A=[1], D0=[0x10, 0x20], F='1000'), moved), 'notclosed 3 to 0011 ---- .')
    six = entry(AT + 1, A=[1], D0=None, C=[6])
    yield Worked(*lone(adc, entry(AT, A=[1], D0=None, C=[5]), six), 'whole 3')
    yield Worked(*lone(adc, entry(AT, A=[1], D0=None, C=[5], F='0010'), six), 'notclosed 3 to 0011 ---- .')
    yield Worked(*lone('2B', entry(AT, D0=[7], F='0010'), entry(AT + 1, D0=[7], C=[7])), 'whole 3')
    yield Worked(*lone('2B', entry(AT, D0=[7, 8], F='0010'), entry(AT + 1, D0=[7, 8], C=[7, 8])), 'notclosed 3 to 0011 ---- .')
    # LR DC,Q gives D0 and c; p1 where that is D1
    loaded = [entry(AT + 1, R14=[0], R15=[value], D0=[value], C=[value], F=word) for value, word in ((0, '1011'), (8, '1010'))]
    yield Worked(*lone(load, entry(AT, R14=[0], R15=[0, 8]), *loaded), 'whole 4')
    both = entry(AT + 1, R14=[0], R15=[0, 8], D0=[0, 8], C=[0, 8], F='1010')
    yield Worked(*lone(load, entry(AT, R14=[0], R15=[0, 8]), both), 'whole 3')
    yield Worked(*lone(load, entry(AT, R14=[0], R15=[0, 8]), both.changed(P1=[True])), 'notclosed 3 to 0011 ---- .')
    yield Worked(*lone(load, entry(AT, R15=[0]), entry(AT + 1, R15=[0], D0=None, F='1010')), 'whole 3')
    # LR Q,DC at two words that the 3851 holds, and at one that it doesn't
    kept = entry(AT + 1, R14=[0, 3], R15=[4], D0=[4, 0x304], F='0010')
    yield Worked(*lone(q_from_d0, entry(AT, D0=[4, 0x304], F='0010'), kept), 'whole 3')
    far = kept.changed(R14=[0, 4], D0=[4, 0x404])
    yield Worked(*lone(q_from_d0, entry(AT, D0=[4, 0x404], F='0010'), far), 'agreed 3')
    yield Worked(*lone(q_from_d0, entry(AT, D0=[4, 0x304], F='0010'), kept.changed(R14=[0])), 'notclosed 3 to 0011 ---- .')


def of_flags() -> Iterator[Worked]:
    """The status word as it is read and written."""
    to_j, from_j, lnk, bz, bnz = '1E', '1D', '19', '841E', '941E'  # the branches lead to 002F or 0030
    yield Worked(*lone(to_j, entry(AT, W='0-0-0'), entry(AT + 1, W='0-0-0', R9=[0, 2, 8, 10])), 'whole 3')
    yield Worked(*lone(to_j, entry(AT, W='0-0-0'), entry(AT + 1, W='0-0-0', R9=[0, 2, 8])), 'notclosed 3 to 0011 ---- .')
    apart = [entry(AT + 1, W=f'0{carry}0-0', R9=[2 * carry, 2 * carry + 8]) for carry in (0, 1)]
    yield Worked(*lone(to_j, entry(AT, W='0-0-0'), *apart), 'whole 4')
    each = [entry(AT + 1, W='10000', R9=[1]), entry(AT + 1, W='11110', R9=[15])]
    yield Worked(*lone(from_j, entry(AT, W='-----', R9=[1, 15]), *each), 'whole 4')
    yield Worked(*lone(from_j, entry(AT, R9=[1, 0x1F]), entry(AT + 1, W='1---0', R9=[1, 31])), 'notclosed 3 to 0011 ---- .')
    linked = [entry(AT + 1, W='10000', A=[1]), entry(AT + 1, W='10000', A=[2])]
    yield Worked(*lone(lnk, entry(AT, W='0-000', A=[1]), *linked), 'whole 4')
    yield Worked(*lone(lnk, entry(AT, W='0-000', A=[1]), linked[0]), 'notclosed 3 to 0011 ---- .')
    # A branch learns what it goes by. Cases are in order, a flag that is 0 first, so the way that is told first depends on the branch.
    yield Worked(*lone(bz, entry(AT, W='00-00'), entry(0x2F, W='00100'), entry(AT + 2)), 'unsafe 5 3')
    target = psu({0: BR_SELF, AT: bz + BR_SELF, 0x2F: BR_SELF})
    yield Worked(target, [entry(0), entry(AT, W='00-00'), entry(0x2F, W='00100'), entry(AT + 2)], 'whole 4')
    yield Worked(target, [entry(0), entry(AT, W='00-00'), entry(0x2F), entry(AT + 2)], 'notclosed 3 to 002F ---- .')
    yield Worked(target, [entry(0), entry(AT, W='00-00')], 'notclosed 3 to 0012 ---- .')
    yield Worked(*lone(bnz, entry(AT, W='00-00')), 'notclosed 3 to 002F ---- .')
    # BT 5 is taken where sign or zero is 1.
    yield Worked(*lone('851F', entry(AT, W='-0-00'), entry(AT + 2)), 'notclosed 3 to 0030 ---- .')
    three = [entry(0x30, W='10000'), entry(0x30, W='-0100')]
    yield Worked(*lone('851F', entry(AT, W='-0-00'), entry(AT + 2), *three), 'whole 5')
    # BR7 while the low digit of ISAR isn't 7
    yield Worked(*lone('8F1F', entry(AT, ISAR=[6, 7]), entry(0x30, ISAR=[6]), entry(AT + 2, ISAR=[7])), 'whole 4')


def of_pointers() -> Iterator[Worked]:
    """ISAR, and registers that it names."""
    yield Worked(*lone('62', entry(AT, ISAR=[0o03, 0o15]), entry(AT + 1, ISAR=[0o23, 0o25])), 'whole 3')  # LISU 2
    yield Worked(*lone('6A', entry(AT, ISAR=[0o03, 0o15]), entry(AT + 1, ISAR=[0o02, 0o12])), 'whole 3')  # LISL 2
    yield Worked(*lone('6A', entry(AT), entry(AT + 1, ISAR=[high + 2 for high in range(0, 64, 8)])), 'whole 3')
    yield Worked(*lone('0A', entry(AT, ISAR=[0o03, 0o77]), entry(AT + 1, A=[3, 63], ISAR=[0o03, 0o77])), 'whole 3')  # LR A,IS
    yield Worked(*lone('0B', entry(AT, A=[0x43, 0xFF]), entry(AT + 1, A=[0x43, 0xFF], ISAR=[0o03, 0o77])), 'whole 3')  # LR IS,A
    # LR A,I and LR A,D step the low digit, which wraps.
    read = [entry(AT + 1, ISAR=[0o04], A=[1], R3=[1], R23=[2], same=3), entry(AT + 1, ISAR=[0o20], A=[2], R3=[1], R23=[2], same=0o27)]
    yield Worked(*lone('4D', entry(AT, ISAR=[0o03, 0o27], R3=[1], R23=[2]), *read), 'whole 4')
    yield Worked(*lone('4D', entry(AT, ISAR=[0o03, 0o27], R3=[1], R23=[2]), read[0]), 'notclosed 3 to 0011 ---- .')
    yield Worked(*lone('4E', entry(AT, ISAR=[0o10], R8=[1]), entry(AT + 1, ISAR=[0o17], A=[1], R8=[1], same=8)), 'whole 3')


SIXTEEN = range(16)


def moved_by_adc(words: int, values: Sequence[int] | None, *last: Sequence[int]) -> tuple[str, list[Entry]]:
    """ADC at so many words of D0 from 0000 on, with these values of A, and entries behind it by the words of D0."""
    return lone('8E', entry(AT, D0=range(words), A=values, F='1010'), *(entry(AT + 1, D0=after, A=values, F='1010') for after in last))


def of_count() -> Iterator[Worked]:
    """4,096 cases, and more."""
    yield Worked(*moved_by_adc(256, SIXTEEN, range(271)), 'whole 3')
    yield Worked(*moved_by_adc(257, SIXTEEN, range(272)), 'notclosed 3 to 0011 ---- .')
    yield Worked(*moved_by_adc(257, SIXTEEN, None), 'whole 3')
    yield Worked(*moved_by_adc(512, range(8), range(512), range(512, 519)), 'whole 4')
    yield Worked(*moved_by_adc(512, range(9), range(512), range(512, 520)), 'notclosed 3 to 0011 ---- .')
    around = [at % 65_536 for at in range(-128, 143)]
    yield Worked(*moved_by_adc(16, None, around), 'whole 3')
    yield Worked(*moved_by_adc(17, None, [*around, 143]), 'notclosed 3 to 0011 ---- .')
    # DS S: one of 16 registers that may be any, and one of 17
    for most, line in ((16, 'whole 4'), (17, 'notclosed 3 to 0011 ---- .')):
        behind = [entry(AT + 1, W='--0-0', ISAR=range(most)), entry(AT + 1, W='11100', ISAR=range(most))]
        yield Worked(*lone('3C', entry(AT, ISAR=range(most)), *behind), line)
    # XS S: 64 registers with 4 bytes each, and 16 bytes of A; and one byte more
    few = {f'R{number}': range(4) for number in NUMBERS}
    for more, line in ((4, 'whole 4'), (5, 'notclosed 3 to 0011 ---- .')):
        regs = {**few, 'R63': range(more)}
        behind = [entry(AT + 1, W='10000', A=range(1, 16), **regs), entry(AT + 1, W='10100', A=[0], **regs)]
        yield Worked(*lone('EC', entry(AT, A=SIXTEEN, **regs), *behind), line)


def of_reasons() -> Iterator[Worked]:
    """Each reason against a case once, and cases in their order."""
    yield Worked(*lone('2B', entry(0x400)), 'unsafe 3 1')
    yield Worked(*lone('2B', entry(0x2800), more=RAM), 'unsafe 3 2')
    cut = psu({0: BR_SELF, 0x3FF: '25'})  # CI, whose byte no chip holds; and no case where A and a register can't be the same
    yield Worked(cut, [entry(0), entry(0x3FF)], 'unsafe 3 1')
    yield Worked(cut, [entry(0), entry(0x3FF, same=3, A=[1], R3=[2])], 'whole 2')
    yield Worked(*lone('2D', entry(AT, same=3, A=[1], R3=[2])), 'unsafe 3 3')
    yield Worked(*lone('2D', entry(AT)), 'unsafe 3 3')
    yield Worked(*lone('0C', entry(AT)), 'unsafe 3 4')
    yield Worked(*lone('0D', entry(AT)), 'unsafe 3 4')
    yield Worked(*lone('09', entry(AT)), 'unsafe 3 5')
    yield Worked(*lone('1C', entry(AT)), 'unsafe 3 6')
    yield Worked(*lone('16', entry(AT, C=[5])), 'unsafe 3 7')
    yield Worked(*lone('16', entry(AT, C=[0x400, 0x401])), 'unsafe 3 7')
    yield Worked(*lone('08', entry(AT, 0x400)), 'unsafe 3 8')
    yield Worked(*lone('A8', entry(AT)), 'unsafe 3 9')
    yield Worked(*lone('2B', entry(AT, W='0000-'), more=WRITTEN_VECTOR), 'unsafe 3 10')
    yield Worked(*lone('16', entry(AT, D0=[0x2800], F='1010'), more=RAM + ROM_TOO), 'unsafe 3 11')
    # PK: r12 first, and the bytes ascending
    keys = [entry(at, AT + 1, R12=[at // 256], R13=[at % 256]) for at in (0x40, 0x50, 0x140, 0x150)]
    code = psu({0: BR_SELF, AT: '0C', **{at: BR_SELF for at in (0x40, 0x50, 0x140, 0x150)}})
    for count, line in enumerate(('3 to 0040', '3 to 0050', '3 to 0140', '3 to 0150')):
        yield Worked(code, [entry(0), entry(AT, R12=[0, 1], R13=[0x40, 0x50]), *keys[:count]], f'notclosed {line} 0011 .')
    yield Worked(code, [entry(0), entry(AT, R12=[0, 1], R13=[0x40, 0x50]), *keys], 'whole 6')
    # A case that leads to what isn't covered, before one that isn't safe, and behind it
    behind = entry(AT + 1, D0=[2, 0x2801], F='1010')
    yield Worked(*lone('16', entry(AT, D0=[1, 0x2800], F='1010'), more=RAM + ROM_TOO), 'notclosed 3 to 0011 ---- .')
    yield Worked(*lone('16', entry(AT, D0=[1, 0x2800], F='1010'), behind, more=RAM + ROM_TOO), 'unsafe 3 11')
    yield Worked(*lone('16', entry(AT, D0=[0x2800, 0x2900], F='1010'), more=RAM + ROM_TOO), 'unsafe 3 11')


# EI; BR .; at 0100 and 0180 POP
LET_IN = psu({0: '1B' '90FF', 0x100: '1C', 0x180: '1C'}, WIRED)
TAKEN = [entry(0), entry(1, W='00001'), entry(1, 1), entry(0x100, 1), entry(0x180, 1)]
# At 0010 with the return 0100 BR 0100: behind it its interrupt comes to the same point. At 0100 BR .
TO_VECTOR = psu({0: BR_SELF, 0x90: '906F', 0x100: BR_SELF, 0x180: BR_SELF}, WIRED)


def of_interrupts() -> Iterator[Worked]:
    yield Worked(LET_IN, TAKEN, 'whole 5')
    yield Worked(LET_IN, TAKEN[:4], 'notclosed 3 to 0180 0001 .')
    yield Worked(LET_IN, TAKEN[:3], 'notclosed 3 to 0100 0001 .')
    yield Worked(LET_IN, [*TAKEN[:2], *TAKEN[3:]], 'notclosed 4 to 0001 0001 .')
    yield Worked(LET_IN, [TAKEN[0], entry(1), *TAKEN[2:]], 'notclosed 2 to 0001 ---- .')
    yield Worked(LET_IN, [*TAKEN[:3], entry(0x100, 1, W='00001'), TAKEN[4]], 'notclosed 3 to 0100 0001 .')
    yield Worked(LET_IN, [TAKEN[0], entry(1, W='0000-'), *TAKEN[2:]], 'whole 5')
    met = [entry(0x180, 0x100), entry(0x180, 0x100, W='0000-'), entry(0x100, 0x100, W='00000'), entry(0x100, 0x100, W='00001')]
    yield Worked(TO_VECTOR, [entry(0), entry(0x90, 0x100, W='00001'), *met], 'notclosed 3 to 0100 0100 .')
    yield Worked(TO_VECTOR, [entry(0), entry(0x90, 0x100, W='00001'), met[0], entry(0x100, 0x100, W='0000-')], 'whole 4')


def worked() -> Iterator[Worked]:
    for group in (of_loop, of_values, of_calls, of_isar, of_keys, of_same, of_counters, of_flags, of_pointers, of_count, of_reasons,
                  of_interrupts):
        yield from group()


# ---- programs that `check` refuses, since no register is tracked

class Refused(NamedTuple):
    """A description, and the line of `check`."""
    cart: str
    line: str


PROGRAMS = {
    # PI 10; PI 10; BR .; at 0010 LR K,P; K to Q; PI 20; PI 20; LR P0,Q; at 0020 LR K,P; PI 30; PK; at 0030 LR A,1; INC; LR 1,A; POP
    'nested calls': Refused(psu({0: '280010' '280010' '90FF', 0x10: '08' '00060107' '280020' '280020' '0D', 0x20: '08' '280030' '0C',
                                 0x30: '411F511C'}), 'refused 0024 0024 . 4'),
    # INS 0; NI 3; DCI 20; SL 1; ADC; LM; LR QU,A; LM; LR QL,A; LR P0,Q; at 0020 the words 0000, 0030, 0034, 0000, and there JMP 0
    'a table': Refused(psu({0: 'A0' '2103' '2A0020' '13' '8E' '1606' '1607' '0D', 0x20: '0000003000340000', 0x30: '290000',
                            0x34: '290000'}), 'refused 000C ---- . 4'),
    # LIS 3; LR 0,A; DS 0; BNZ; LR A,0; LR KU,A; LI 10; LR KL,A; PK; at 0010 BR .
    'a counter': Refused(psu({0: '7350' '30' '94FE' '4004' '201005' '0C', 0x10: BR_SELF}), 'refused 000A ---- . 4'),
    'keys': Refused(KEYS, 'refused 0008 ---- . 4'),
    # JMP 8; at 0008 INS 0; CI 5; LR J,W; LIS 0; INC; LR W,J; BNZ to 0018; LR A,J; NI 4; LR KL,A; CLR; LR KU,A; PK; at 0004 JMP 20
    'flags in r9': Refused(psu({0: '290008', 4: '290020', 8: 'A0' '2505' '1E' '701F' '1D' '9408' '49210405' '7004' '0C', 0x18: BR_SELF,
                                0x20: BR_SELF}), 'refused 0017 ---- . 4'),
    # ISAR to 10 or 12 by a key; LI 20; LR S,A; LR A,S; LR KL,A; CLR; LR KU,A; PK; at 0020 BR .
    'a register by ISAR': Refused(psu({0: '61' '68' 'A0' '8402' '6A' '2020' '5C' '4C05' '7004' '0C', 0x20: BR_SELF}),
                                  'refused 000D ---- . 4'),
}


# ---- instructions of all opcodes, each in a place of its own

PARTS = 3  # lists in which each opcode is once
PLACE, FIRST, TARGET, VECTOR = 8, 0x40, 8, 0x0400
ADDRESSES = (0, 1, 0x10, 0x3FF, 0x400, 0x1000, 0x2000, 0x20FF, 0x2800, 0x2801, 0xFFFF)
OPERANDS: dict[Operand, Callable[[Random], bytes]] = {
    Operand.NONE: lambda random: b'',
    Operand.BYTE: lambda random: bytes([random.choice((0, 1, 3, 0x0F, 0x7F, 0x80, 0xFF))]),
    Operand.PORT: lambda random: bytes([random.choice((4, 5, 8, 9))]),
    Operand.OFFSET: lambda random: b'\x04',
    Operand.ADDRESS: lambda random: bytes([0, TARGET]),
}


def placed(random: Random, opcodes: Sequence[Opcode]) -> bytes:
    """The code: BR . at 0000, at 0008, behind each instruction, where it branches to, and at both addresses of a vector."""
    loop = bytes.fromhex(BR_SELF)
    found = bytearray(loop.ljust(TARGET, b'\xFF') + loop).ljust(FIRST, b'\xFF')
    for opcode in opcodes:
        part = bytes([opcode.code]) + OPERANDS[opcode.operand](random) + loop
        found += (part.ljust(5, b'\x2B') + loop if opcode.operand is Operand.OFFSET else part).ljust(PLACE, b'\xFF')
    return bytes(found.ljust(VECTOR, b'\xFF') + loop.ljust(0x80, b'\xFF') + loop)


def some(random: Random, pool: Sequence[int], most: int, any_share: float) -> Values:
    return None if random.random() < any_share else frozenset(random.sample(pool, random.randint(1, min(most, len(pool)))))


def random_entry(random: Random, at: int) -> Entry:
    """An entry with few values of most parts that an instruction may read."""
    parts: list[Values] = [None] * len(Part)
    for register in range(24):
        parts[register] = some(random, range(256), random.choice((1, 2, 4)), 0.3)
    parts[12], parts[13], parts[14], parts[15] = BIT[False], some(random, (0, TARGET), 2, 0), BIT[False], some(random, (0, TARGET), 2, 0)
    parts[Part.A] = random.choice((some(random, range(256), 4, 0.3), parts[random.randrange(12)]))
    parts[ISAR] = some(random, range(24), 3, 0.1)
    for part in STATUS:
        parts[part] = random.choice((None, BIT[False], BIT[True]))
    for part in (D0, D1, C):
        parts[part] = some(random, ADDRESSES, 3, 0.15)
    for part, share in zip(FACTS, (0.9, 0.5, 0.8, 0.5)):
        parts[part] = BIT[True] if random.random() < share else None
    return Entry(at, random.choice((None, 0, TARGET)), tuple(parts), random.choice((None, random.randrange(12), random.randrange(64))))


def list_of_opcodes(seed: int) -> tuple[str, list[Entry]]:
    """A description, and a list that is closed and safe: entries at an instruction of each of a third of the opcodes, as far as they are
    safe, and all that these lead to. With an odd number interrupts may be let in."""
    random = Random(seed)
    opcodes = [opcode for opcode in OPCODES if not opcode.is_reserved][seed % PARTS::PARTS]
    rom, keys = placed(random, opcodes), WIRED.replace('0x0100', str(VECTOR)) if seed % 2 else ''
    chips = [PSU.format(base=base, ports=4 + base // 256, keys='' if base else keys, rom=rom[base:base + 1024].hex())
             for base in (0, VECTOR)]
    cart = 'format = 2\n' + ''.join(chips) + random.choice(('', '[[chip]]\nkind = "3853"\npages = ["rom 20", "ram 28"]\n'))
    judge = Judge(described(cart))
    seeds = [random_entry(random, FIRST + PLACE * number) for number in range(len(opcodes))]
    safe = [seed for seed in seeds if not any(found.refusal for found in judge.ways(seed))]
    return cart, searched(described(cart), [START, *safe], rounds=1).entries


# ---- changes of lists

def choices(given: Entry, is_right: Callable[[Values], bool]) -> list[int]:
    return [part for part, values in enumerate(given.parts) if part != Part.ISAR_LOW and is_right(values)]


def with_part(given: Entry, part: int, values: Values) -> Entry:
    return given.changed(**{'ISAR' if part == ISAR else Part(part).name: values})


def one_less(random: Random, given: Entry) -> Entry:
    parts = choices(given, lambda values: values is not None and len(values) > 1)
    part = random.choice(parts) if parts else None
    return given if part is None else with_part(given, part, given.parts[part] - {random.choice(sorted(given.parts[part]))})


def narrower(random: Random, given: Entry) -> Entry:
    """A part that may be any has some values: of a flag one, and of a fact that it holds."""
    part = random.choice(choices(given, lambda values: values is None) or [Part.R0])
    pool = [True] if part in FACTS else [False, True] if part in STATUS else range(REGISTERS) if part == ISAR else range(256)
    return with_part(given, part, frozenset(random.sample(pool, 1 if part in (*FACTS, *STATUS) else random.randint(1, 16))))


def wider(random: Random, given: Entry) -> Entry:
    """A part may be any, or a fact isn't stated."""
    return with_part(given, random.choice(choices(given, lambda values: values is not None)), None)


def other_same(random: Random, given: Entry) -> Entry:
    return given._replace(same=random.choice((None, random.randrange(12), random.randrange(REGISTERS))))


CHANGES: tuple[Callable[[Random, Entry], Entry], ...] = (one_less, narrower, narrower, wider, other_same)


def is_placed(given: Entry) -> bool:
    """Whether an entry of such a list stands at an instruction under trial, and not behind it."""
    return FIRST <= given.at < VECTOR and given.at % PLACE == 0


def changed(random: Random, entries: Sequence[Entry]) -> list[Entry]:
    """A list with one entry less, or with another one in the place of one; mostly of those to which others lead."""
    places = [place for place, given in enumerate(entries) if not is_placed(given)] if random.random() < 0.7 else range(len(entries))
    place = random.choice(places)
    change = random.choice((None, *CHANGES))
    return [*entries[:place], *([] if change is None else [change(random, entries[place])]), *entries[place + 1:]]
