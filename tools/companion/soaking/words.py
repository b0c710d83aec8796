"""Any words in a call, beside another reader of them; and files that are not there."""
from __future__ import annotations

from random import Random

from companion.soaking.calls import Word
from companion.soaking.commanded import PLAIN, plain_words
from companion.soaking.trials import Trial

ODD: tuple[Word, ...] = ('', '-', '--', '-x', '--trace', '--cert', '--cases', '--tr', '--trace=x', '-h', '--help', 'help', 'play ', 'Play', 'check', '0',
                         '4294967296', '10000000000', '-1', '+1', '1.0', '\u0661', 'é', 'no such file', '/', '.', 'cart.toml/x', b'\xff', b'a\x80')
CART = 'format = 1\n[[chip]]\nkind = "3851"\nbase = 0\nports = 4\nrom = "90FF"\n'
FILES = {'cart.toml': CART, '-x': CART, 'text.txt': 'steps 5\n'}
GENERATED = 0.01  # of the cases, in which a large cartridge is made and run
UNSPELLED = 10  # the status where a word isn't UTF-8


def words(trial: Trial) -> None:
    for name, text in FILES.items():
        trial.put(name, text)
    if trial.random.random() < GENERATED:
        trial.again(trial.called('gen', str(trial.random.randrange(1 << 32))))
        return
    call = random_words(trial.random)
    if any(isinstance(word, bytes) for word in call):
        unspelled(trial, call)
        return
    found = plain_words(call)
    told = trial.call(*call)
    trial.again(told)
    trial.same(told.line == 'error words', found is None, 'whether the words are refused')
    if found and call[0] != 'gen' and not is_there(found[0]):
        trial.same((told.status, told.line.rpartition(' ')[0]), (4, 'error store'), 'answer without the first file')


def random_words(random: Random) -> list[Word]:
    """A call that is mostly near a right one, and whose number, if it has one, is a wrong one."""
    command = random.choice(list(PLAIN))
    names = [random.choice((*FILES, 'no such file')) for _ in range(PLAIN[command])]
    call: list[Word] = [command, *(names if command != 'gen' else ['x'])]
    for _ in range(random.choice((0, 1, 1, 2))):
        at = random.randrange(len(call) + 1)
        call[at:at + random.randrange(2)] = [random.choice(ODD)]
    return [word for word in call] if not is_run(call) else ['gen', '-1']


def is_run(call: list[Word]) -> bool:
    """Whether a call makes a large cartridge, which takes long."""
    found = plain_words(call)
    return bool(found) and call[0] == 'gen'


def is_there(name: str) -> bool:
    return name in FILES


def unspelled(trial: Trial, call: list[Word]) -> None:
    """A word that isn't UTF-8 ends a call before anything is written."""
    trial.calls.append(tuple(call))
    told = trial.caller.call(*call)
    trial.same((told.status, told.output, told.errors), (UNSPELLED, b'', b''), 'answer to words that are not UTF-8')
