"""`link` beside a linker that was written apart, and `asm` of the one source of its modules."""
from __future__ import annotations

from companion.assembly import Image
from companion.soaking.trials import Trial
from linked import one_source, parts_of, printed
from random_modules import Modules

PLAN = 'plan'


def links(trial: Trial) -> None:
    files = Modules(trial.random.randrange(1 << 48)).files
    for name, text in files.items():
        trial.put(name, text)
    told = trial.call('link', PLAN)
    lines, status = printed(PLAN, files)
    trial.same((told.output, told.status), (''.join(f'{line}\n' for line in lines).encode(), status), '`link`')
    if status == 0:
        one = trial.call('asm', trial.put('one.f8', one_source(parts_of(PLAN, files))))
        trial.same(one.status, 0, 'status of `asm` of the one source')
        linked, image = Image.of(told.output), Image.of(one.output)
        trial.same(image.bytes, linked.bytes, '`asm` of the one source')
        trial.same({name: image.names[name] for name in linked.names}, linked.names, 'names of the one source')
