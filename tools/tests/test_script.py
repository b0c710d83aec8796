"""The script `channel_f` with tools/prove, over a tree of small crates and a command `rt` that proves nothing."""
from __future__ import annotations

import os
import shutil
import signal
import subprocess
import tempfile
import time
import unittest
from pathlib import Path

TOP = Path(__file__).resolve().parent.parent.parent

# Of these crates the program doesn't need `side`, and `left` and `right` don't stand on each other.
CRATES = '''# A crate a line.
low:
side: low
left: low thiserror # a library of the kit
right: low
high: left right
channel_f_main: high
'''
BELOW = ['low', 'left', 'right', 'high']

# It notes its calls at the top, writes what rt does where it proves, and waits while the file `hold` lies there.
RT = '''#!/bin/sh
top='TOP'
crate=$(basename "$PWD")
echo "$crate: $*" >>"$top/calls"
[ -d "$TMPDIR" ] && touch "$TMPDIR/of-rt" || echo "no TMPDIR" >>"$top/calls"
hold() { while [ -f "$top/hold" ]; do echo "$$" >"$top/pid-$crate"; sleep 0.1; done; }
case $1 in
    lib)
        echo "talk of the prover"
        [ -f src/lib.rt ] || exit 2
        for name in ../*; do [ ! -f "$name/out/rlib/stamp" ] || echo "over $(basename "$name")" >>"$top/$crate.over"; done
        mkdir -p out/incremental
        echo half >>out/incremental/work
        [ "$crate" != low ] && hold
        [ ! -f "$top/refuse" ] || [ "$crate" != high ] || exit 1
        mkdir -p out/rlib
        touch out/rlib/stamp
        ;;
    run)
        mkdir -p out
        cp "$top/program" out/channel_f_main
        ;;
    try)
        echo "talk of the build" >&2
        [ ! -f "$top/refuse" ] || { echo "run=none proved=no" >&2; exit 6; }
        while [ "$1" != -- ]; do echo "$1"; shift; done
        shift
        echo "$@"
        echo "run=ended status=3 runners=1 proved=no" >&2
        exit 3
        ;;
esac
'''

# It writes its words, and ends with the number in the file `status`.
PROGRAM = '''#!/bin/sh
echo "$@"
if [ "$1" = wait ]; then echo "$$" >pid; exec sleep 60; fi
if [ "$1" = debug ]; then cat; fi
exit "$(cat status)"
'''


def heed_signals():
    """What a shell ignores for jobs in the background, and nohup, stays ignored in all that they start."""
    for sign in (signal.SIGINT, signal.SIGHUP):
        signal.signal(sign, signal.SIG_DFL)


class Script(unittest.TestCase):
    def setUp(self):
        room = tempfile.TemporaryDirectory()
        self.addCleanup(room.cleanup)
        self.top = Path(room.name).resolve() / 'a tree'
        for name in ('side', *BELOW, 'channel_f_main'):
            (self.top / 'crates' / name / 'src').mkdir(parents=True)
            (self.top / 'crates' / name / 'src/lib.rt').write_text('')
            (self.top / 'crates' / name / 'src/more.rt').write_text('')
        shutil.copy(TOP / 'channel_f', self.top)
        (self.top / 'tools').mkdir()
        shutil.copy(TOP / 'tools/prove', self.top / 'tools')
        shutil.copytree(TOP / 'tools/companion', self.top / 'tools/companion')
        self.put('crates.txt', CRATES)
        self.put('HANDLES', '')
        self.put('status', '0')
        self.put('program', PROGRAM).chmod(0o755)
        self.put('bin/rt', RT.replace('TOP', str(self.top))).chmod(0o755)
        self.put('temporary/keep', '')
        self.out = self.top / 'crates/channel_f_main/out'

    def put(self, name: str, text: str) -> Path:
        (self.top / name).parent.mkdir(parents=True, exist_ok=True)
        (self.top / name).write_text(text)
        return self.top / name

    def start(self, *words: str, with_rt: bool = True, path: str = '', shell: tuple[str, ...] = (), **streams: object) -> subprocess.Popen:
        path = path or (f'{self.top}/bin:{os.environ["PATH"]}' if with_rt else '/usr/bin:/bin')
        environment = {**os.environ, 'PATH': path, 'TMPDIR': str(self.top / 'temporary')}
        call = [*shell, self.top / 'channel_f', *words]
        streams = {'stdin': subprocess.DEVNULL, 'stdout': subprocess.PIPE, 'stderr': subprocess.PIPE, **streams}
        return subprocess.Popen(call, cwd=self.top, env=environment, text=True, start_new_session=True, preexec_fn=heed_signals, **streams)

    def call(self, *words: str, with_rt: bool = True, path: str = '') -> subprocess.CompletedProcess:
        process = self.start(*words, with_rt=with_rt, path=path)
        wrote, told = process.communicate(timeout=30)
        return subprocess.CompletedProcess(words, process.returncode, wrote, told)

    def calls(self) -> list[str]:
        path = self.top / 'calls'
        return path.read_text().splitlines() if path.exists() else []

    def wait_for(self, name: str) -> str:
        for _ in range(100):
            if (self.top / name).exists() and (self.top / name).read_text().strip():
                return (self.top / name).read_text().strip()
            time.sleep(0.1)
        self.fail(f'{name} did not come')

    def assert_gone(self, pid: str):
        for _ in range(50):
            if not Path(f'/proc/{pid}').exists():
                return
            time.sleep(0.1)
        self.fail(f'process {pid} still runs')

    def assert_nothing_left(self):
        self.assertEqual([it.name for it in (self.top / 'temporary').iterdir()], ['keep'])
        self.assertEqual({it.name for it in self.out.iterdir()} - {'channel_f_main', 'built', 'build.log', 'lock'}, set())

    def built(self) -> list[str]:
        return [name for name in BELOW if (self.top / 'crates' / name / 'out/rlib/stamp').exists()]

    def test_help_needs_no_build(self):
        for words in (['--help'], ['-h'], ['help'], ['--version'], ['play', '--help'], ['check', 'cart.toml', '-h'], ['--unproved', 'asm', '-h']):
            done = self.call(*words, with_rt=False)
            self.assertEqual((done.returncode, done.stderr), (0, ''))
            self.assertIn('channel_f play CART SCRIPT', done.stdout)
        done = self.call(with_rt=False)
        self.assertEqual((done.returncode, done.stdout), (1, ''))
        self.assertIn('channel_f play CART SCRIPT', done.stderr)
        self.assertFalse(self.out.exists())

    def test_first_call_builds_and_the_next_does_not(self):
        done = self.call('asm', 'a b')
        self.assertEqual((done.returncode, done.stdout), (0, 'asm a b\n'))
        self.assertIn('crate 1 of 5: low\n', done.stderr)
        self.assertIn('crate 4 of 5: high\n', done.stderr)
        self.assertNotIn('talk of the prover', done.stderr)
        self.assertIn('== high\ntalk of the prover\n', (self.out / 'build.log').read_text())
        self.assertIn(str(self.out / 'build.log'), done.stderr)
        self.assertEqual([it.partition(' --jobs')[0] for it in sorted(self.calls()[1:3])], ['left: lib', 'right: lib'])
        self.assertEqual([it.partition(' --jobs')[0] for it in self.calls()[::3]], ['low: lib', 'high: lib'])
        self.assertEqual(self.calls()[4:], ['channel_f_main: run -- asm /dev/null'])
        self.assertEqual(sorted(set((self.top / 'high.over').read_text().split())), ['left', 'low', 'over', 'right'])
        self.assertEqual(self.built(), BELOW)
        self.assert_nothing_left()
        done = self.call('gen', '1', with_rt=False)
        self.assertEqual((done.returncode, done.stdout, done.stderr), (0, 'gen 1\n', ''))

    @unittest.skipUnless(len(os.sched_getaffinity(0)) > 1, 'there is a single processor')
    def test_crates_that_do_not_stand_on_each_other_are_proved_side_by_side(self):
        self.put('hold', '')
        process = self.start('gen', '1')
        self.wait_for('pid-left')
        self.wait_for('pid-right')
        (self.top / 'hold').unlink()
        self.assertEqual(process.communicate(timeout=30)[0], 'gen 1\n')

    def test_what_changed_is_built_again_and_what_stands_on_it(self):
        self.call('gen', '1')
        for change, again in ((lambda: self.put('crates/right/src/lib.rt', 'changed'), ['right', 'high']),
                              (lambda: (self.top / 'crates/high/src/more.rt').unlink(), ['high'])):
            time.sleep(0.05)
            change()
            before = len(self.calls())
            self.call('gen', '1')
            self.assertEqual([it.partition(':')[0] for it in self.calls()[before:]], [*again, 'channel_f_main'])

    def test_every_part_of_a_source_starts_a_build(self):
        files = [f'crates/low/{name}' for name in ('src/lib.rt', 'specs/Low.antt', 'proofs/Low.antt')]
        for name in files:
            self.put(name, '')
        self.call('gen', '1')
        for name in ('crates.txt', 'HANDLES', *files, *(name.rpartition('/')[0] for name in files)):
            self.assertEqual(self.call('gen', '1', with_rt=False).returncode, 0, name)
            before = (self.top / name).stat().st_mtime
            os.utime(self.top / name, (before + 60, before + 60))
            self.assertIn('the command rt', self.call('gen', '1', with_rt=False).stderr, name)
            os.utime(self.top / name, (before, before))

    def test_a_word_behind_two_dashes_is_a_name(self):
        self.call('gen', '1')
        self.assertEqual(self.call('asm', '--', '-h').stdout, 'asm -- -h\n')

    def test_standard_input_reaches_the_program(self):
        self.call('gen', '1')
        for shell in filter(shutil.which, ('sh', 'dash', 'bash')):
            process = self.start('debug', 'cart', '/dev/stdin', shell=(shell,), stdin=subprocess.PIPE)
            self.assertEqual(process.communicate('run 5\n', timeout=30), ('debug cart /dev/stdin\nrun 5\n', ''), shell)
            closed = self.start('debug', 'cart', '/dev/stdin', shell=(shell, '-c', f'exec {shell} "$@" <&-', shell))
            self.assertEqual(closed.communicate(timeout=30), ('debug cart /dev/stdin\n', ''), shell)

    def test_a_closed_pipe_is_silent(self):
        self.call('gen', '1')
        self.put('status', '5')
        self.assertEqual(self.call('gen', '1').stderr, '')
        with open(os.devnull, 'w') as output, self.start('gen', '1', stdout=output) as process:
            self.assertIn('status 5', process.communicate(timeout=30)[1])

    def test_status_is_the_programs_and_is_said_in_words(self):
        self.call('gen', '1')
        for status, word in ((1, '--help'), (2, 'error'), (3, 'stop'), (4, 'error store'), (6, 'memory'),
                             (7, 'CHECKER'), (8, 'reserved'), (10, 'the words')):
            self.put('status', str(status))
            done = self.call('gen', '1')
            self.assertEqual((done.returncode, done.stdout), (status, 'gen 1\n'))
            self.assertRegex(done.stderr, rf'^channel_f: status {status}: .*{word}.*\n$')
        self.put('status', '70')
        self.assertEqual(self.call('gen', '1').stderr, '')

    def test_without_rt_it_says_what_is_missing(self):
        done = self.call('gen', '1', with_rt=False)
        self.assertEqual((done.returncode, done.stdout), (70, ''))
        self.assertIn('the Rattle kit that README.md names', done.stderr)

    def test_a_missing_command_is_named(self):
        for missing in ('rt', 'python3', 'flock'):
            folder = self.top / f'without {missing}'
            folder.mkdir()
            for name in {'readlink', 'dirname', 'rt', 'python3', 'flock'} - {missing}:
                (folder / name).symlink_to(shutil.which(name, path=f'{self.top}/bin:{os.environ["PATH"]}'))
            done = self.call('gen', '1', path=str(folder))
            self.assertEqual((done.returncode, done.stdout), (70, ''))
            self.assertRegex(done.stderr, rf"^channel_f: the command {missing} isn't in the path: .*\n$")
            self.assertFalse(self.out.exists())
        self.assertEqual(self.calls(), [])

    def test_failed_build(self):
        self.put('refuse', '')
        done = self.call('gen', '1')
        self.assertEqual((done.returncode, done.stdout), (70, ''))
        self.assertIn("high wasn't proved", done.stderr)
        self.assertEqual(self.built(), BELOW[:3])
        self.assertFalse((self.out / 'built').exists())
        self.assert_nothing_left()

    def test_build_that_is_cut_off_goes_on_with_what_was_proved(self):
        for number, sign in enumerate((signal.SIGINT, signal.SIGTERM, signal.SIGHUP, signal.SIGKILL), start=1):
            self.put('hold', '')
            process = self.start('gen', '1')
            of_rt = self.wait_for('pid-left')
            os.killpg(process.pid, sign)
            wrote, _ = process.communicate(timeout=30)
            self.assertEqual((process.returncode, wrote), (-sign, ''))
            self.assert_gone(of_rt)
            self.assertFalse((self.out / 'built').exists())
            self.assertEqual(self.built(), ['low'])
            if sign != signal.SIGKILL:
                self.assert_nothing_left()
                self.assertEqual((self.top / 'crates/left/out/incremental/work').read_text(), 'half\n' * number)
            (self.top / 'pid-left').unlink()
        (self.top / 'hold').unlink()
        self.assertEqual(self.call('gen', '1').stdout, 'gen 1\n')
        self.assertEqual((self.top / 'crates/left/out/incremental/work').read_text(), 'half\n' * 5)
        self.assert_nothing_left()

    def test_two_calls_build_once(self):
        self.put('hold', '')
        first = self.start('gen', '1')
        self.wait_for('pid-left')
        second = self.start('gen', '2')
        time.sleep(0.5)
        (self.top / 'hold').unlink()
        self.assertEqual(first.communicate(timeout=30)[0], 'gen 1\n')
        wrote, told = second.communicate(timeout=30)
        self.assertEqual((second.returncode, wrote), (0, 'gen 2\n'))
        self.assertIn('another call', told)
        self.assertEqual(len(self.calls()), 5)

    def test_signal_ends_the_program_too(self):
        self.call('gen', '1')
        process = self.start('wait')
        of_program = self.wait_for('pid')
        os.kill(process.pid, signal.SIGTERM)
        process.communicate(timeout=30)
        self.assertEqual(process.returncode, -signal.SIGTERM)
        self.assert_gone(of_program)

    def test_unproved_run(self):
        self.put('carts/cart.toml', '[[chip]]\nsource = "carts/a.f8" # one\n[[chip]]\nsource=\'gone.f8\'\n')
        self.put('carts/a.f8', '')
        done = self.call('--unproved', 'play', '--trace', 'carts/cart.toml', f'{self.top}/script.txt')
        self.assertEqual(done.stdout.splitlines(), [
            'try', '--data', f'carts/a.f8={self.top}/carts/a.f8',
            f'play --trace {self.top}/carts/cart.toml {self.top}/script.txt'])
        self.assertEqual(done.returncode, 3)
        self.assertIn('not proved', done.stderr)
        self.assertIn('status 3', done.stderr)
        self.assertNotIn('talk of the build', done.stderr)
        self.assertEqual(self.call('--unproved', 'gen', '1').stdout, 'try\ngen 1\n')
        self.assertEqual(self.call('--unproved', 'asm', '--', '-x').stdout, f'try\nasm -- {self.top}/-x\n')
        self.assert_nothing_left()

    def test_unproved_run_on_a_plan(self):
        self.put('carts/game.plan', '# two\r\nmodule carts/a.f8 0000 00ff\r\nmodule gone.f8 0100 01FF\nmodule carts/a.f8 0200 02FF')
        self.put('carts/a.f8', '')
        done = self.call('--unproved', 'link', 'carts/game.plan')
        self.assertEqual(done.stdout.splitlines(), ['try', '--data', f'carts/a.f8={self.top}/carts/a.f8', f'link {self.top}/carts/game.plan'])
        self.assert_nothing_left()

    def test_unproved_run_without_an_answer(self):
        self.put('refuse', '')
        done = self.call('--unproved', 'gen', '1')
        self.assertEqual((done.returncode, done.stdout), (70, ''))
        self.assertIn('run=none', done.stderr)
        self.assert_nothing_left()


if __name__ == '__main__':
    unittest.main()
