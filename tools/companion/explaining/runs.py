"""Where a run stopped, and which point of a cartridge the checker refuses, with names and the calls that lead there."""
from __future__ import annotations

import re
import shlex

from companion.calls import Sort
from companion.description import PULSE, Chip, Description
from companion.explaining.files import Files
from companion.page_tables import reason_of, row_of_code

MOST_CALLS = 12  # the last ones of a way, which are told
NO_CODE = ('1', '2', '3')  # the reasons against what isn't code, and against a vector that isn't known
UNKNOWN_VECTOR = '10'


def chip_in_words(chip: Chip) -> str:
    first = f' at {chip.rom[0].start:04X}' if chip.rom else ''
    return f'chip {chip.number} of the description, the {chip.kind.value}{first}'


def holder(description: Description, address: int) -> str:
    """The chips whose space has an address, in words."""
    return ' and '.join(f'chip {chip.number}' for chip in description.holders(address))


def where(files: Files, address: int) -> list[str]:
    """An address with its name, and the chip that has it."""
    name, held = files.labels.place(address), holder(files.description, address)
    at = f'{address:04X} is {name}.' if name else ''
    lies = f'{"It" if name else f"{address:04X}"} lies in {held} of the description.' if held else ''
    return [' '.join(part for part in (at, lies) if part)] if at or lies else []


def calls_to(files: Files, address: int, back: int | None) -> list[str]:
    """By which calls and jumps one gets to an address, through the call behind which the return lies if that is known."""
    reach = files.reach
    ways = reach.way_to(address, back)
    if not ways:
        return []
    shown = [f'    {files.labels.statement(reach.instructions[way.origin])}' + ', and back' * (way.sort is Sort.BACK) for way in ways[-MOST_CALLS:]]
    return ['One way to it:', *['    ..'] * (len(ways) > MOST_CALLS), *shown]


def return_of(files: Files, back: str) -> str:
    if back == '----':
        return 'The return is not known there.'
    call = files.reach.before(int(back, 16))
    return f'The return is {files.labels.full(int(back, 16))}' + (f', behind {files.labels.statement(call)}' if call else '') + '.'


def refused(files: Files, *point: str) -> list[str]:
    why = f'tools/why {files.path("cart") or "CART"} says what lost it, and tools/split looks for registers to track.'
    return [*point_of(files, *point), why]


def unsafe(files: Files, *point: str) -> list[str]:
    again = f'./channel_f check --cert {files.path("cart") or "CART"} makes a certificate anew, where one can be made.'
    return [*point_of(files, *point), 'A state that says less than could be known may be unsafe where `check` is content. ' + again]


def point_of(files: Files, at: str, back: str, values: str, number: str) -> list[str]:
    """The reason for which a point is refused with what helps, the names of the point, and what is known there."""
    reason = reason_of(number)
    told = [f'Reason {number}: {reason.what}; such as {reason.example} (docs/CHECKER.md).', f'What helps: {reason.help}.'] if reason else []
    pairs = zip(files.description.split, values.split(','))
    known = [f'r{register} is {byte}' for register, byte in pairs if byte != '--' and register in range(64)]
    return [*told, *where(files, int(at, 16)), *vector_of(files, int(at, 16), number),
            *calls_to(files, int(at, 16), None if back == '----' else int(back, 16)),
            *([f'There {" and ".join(known)}.'] if known else []), return_of(files, back)]


def vector_of(files: Files, address: int, number: str) -> list[str]:
    """What is wrong where an interrupt leads to no code, and which chips have their vector in ports."""
    if number in NO_CODE:
        chip = next((chip for chip in files.description.chips if address in chip.vectors), None)
        cause = 'a pulse' if address & PULSE else 'its timer'
        return [f'{address:04X} is where an interrupt of chip {chip.number} leads, by {cause}. Both addresses of a vector need code in ROM, `EI` '
                'and `POP` at least, whatever the chip lets in.'] if chip else []
    chips = [f'chip {chip.number}' for chip in files.description.chips if chip.interrupt and not chip.vectors]
    return [f'The vector of {" and ".join(chips)} is in ports.'] if number == UNKNOWN_VECTOR and chips else []


def not_closed(files: Files, origin: str, *point: str) -> list[str]:
    """What a certificate lacks, and where; of the start also what a list of cases does."""
    text = 'list of cases' if files.command == 'confirm' else 'certificate'
    said = (f'The {text} belongs to another description, or was changed.' if origin == 'start' else
            'What holds there after the instruction at the first point is not what the certificate says: some part is claimed that is not known, '
            'or the point is missing. It may belong to another description.')
    first = where(files, int(origin[:4], 16)) if origin != 'start' else []
    return [said, *first, *where(files, int(point[0], 16))]


def unsafe_entry(files: Files, line: str, number: str) -> list[str]:
    """The reason against a case of an entry, and the entry's line."""
    reason = reason_of(number)
    told = [f'Reason {number}: {reason.what}; such as {reason.example} (docs/CHECKER.md).', f'What helps: {reason.help}.'] if reason else []
    return [*told, *files.line('cases', int(line))[0],
            'An entry may allow values that no run has there. Another list may have several entries in its place (docs/PROVE.md).']


def unproved(files: Files, at: str, back: str, number: str) -> list[str]:
    """Where a search for a list of cases gave up, and why."""
    reason = reason_of(number)
    told = ([f'Reason {number}: {reason.what}; such as {reason.example} (docs/CHECKER.md).', f'What helps: {reason.help}.'] if reason else
            ['There were too many entries or cases, or the list is too long for a file. Counters that are kept apart by their values make many.'])
    return [*told, *where(files, int(at, 16)), return_of(files, back), 'Another search may find a list (docs/PROVE.md).']


def not_covered(files: Files, line: str, at: str, back: str) -> list[str]:
    """The line of an entry that leads to what no entry covers, and where that is."""
    return ['Some case of this entry leads to a value, a return or a fact that no entry there allows, or there is no entry there. The list may '
            'belong to another description.', *files.line('cases', int(line))[0], *where(files, int(at, 16)), return_of(files, back)]


def too_many(files: Files) -> list[str]:
    returns = ['Each instruction at whose end an interrupt may be taken gives one more return, with which all that follows is looked at: let '
               'interrupts in at one place, `EI`, a few instructions, `DI` (docs/SAFE.md).']
    return ['Each register in `split` multiplies the points: track fewer of them, or let them count less far.',
            *(returns if any(chip.vectors for chip in files.description.chips) else []),
            f'tools/why {files.path("cart") or "CART"} says where the most points are, and what multiplies them.']


def agreed(files: Files) -> list[str]:
    return [f'tools/why {files.path("cart") or "CART"} names these reads.'] if files.command not in ('prove', 'confirm') else []


def fault(files: Files, sort: str, code: str, rest: str) -> list[str]:
    """A bus step that wasn't served: what its code does, the chips, and the usual cause."""
    names = {chip.socket: chip_in_words(chip) for chip in files.description.chips}
    is_port = code in ('1A', '1B')
    found = re.findall(r'socket (\d+) at (\S+)', rest)
    chips = [f'Socket {socket} has {names.get(int(socket), "a chip that the description would name")}; it {"has the port" if is_port else "is at"} {at}.'
             for socket, at in found]
    at = re.search(r'(?:^ at|reference) (\S+)', rest)
    held = holder(files.description, int(at[1], 16)) if at and not is_port else ''
    same = len({at for _, at in found}) == 1
    reference = [f'The reference is {at[1]}' + (f', which {held} has.' if held else '.')] if sort == 'astray' and at else []
    has_trace = not is_port and (sort == 'astray' or sort == 'conflict' and not same or bool(held))
    trace = f'tools/trace --parted {shlex.join(files.words) or "./channel_f play .."} shows each chip\'s counters.'
    return [row_of_code(code), *chips, *reference, usual_cause(sort, is_port, same, held, at[1] if at else ''), *[trace] * has_trace]


def usual_cause(sort: str, is_port: bool, same: bool, held: str, at: str) -> str:
    if sort == 'conflict':
        if is_port:
            return 'Two chips have the same port: give each its own `ports`; a 3853 has 0C to 0F.'
        return ('They answer at one address: two chips have the same `base` or page.' if same else
                'Their own copies of a counter have parted, often by an XDC, which a 3851 does not follow.')
    if sort == 'undriven':
        if is_port:
            return f'No chip can read the port {at}: it is the data port of none. A 3853 has no data ports.'
        return (f'The address belongs to {held}, but its own copy of the counter is elsewhere, as after a POP or XDC with counters of power-on.'
                if held else 'No chip has that address: the program ran, jumped or read past the ROM, or a chip is missing.')
    return ("The chip's own copy of the counter has parted from the reference. The usual cause is an XDC, as a 3851 has one data counter; "
            'or a counter that was never loaded since power-on.')


def reserved(files: Files, opcode: str, at: str) -> list[str]:
    return [*where(files, int(at, 16)), 'A ROM has FF where it was given no bytes: the program ran or jumped past its end.' if opcode == 'FF' else
            f'Look whether {at} holds data, into which the program ran or jumped.']


def stopped_at(files: Files, address: int) -> list[str]:
    """The instruction in which a run stopped, by the registers that come behind the stop line."""
    instruction = files.reach.instructions.get(address)
    place = files.labels.place(address)
    if instruction:
        return [f'It stopped in {files.labels.statement(instruction)}.']
    return [f'It stopped in {address:04X} {place}.'] if place else []
