"""A folder with a model and the files of a session, over which `sm_tool cross` runs and is measured."""
import os
import re
import subprocess
import sys
import time


AT_ONCE = 100


def head(start, fields, body):
    return '\r\n'.join([start, *fields, f'content-length: {len(body)}', '', '']).encode() + body


def spent(process):
    """Seconds of the processor that a process has had that waits by now."""
    time.sleep(0.2)
    with open(f'/proc/{process}/schedstat', encoding='ascii') as told:
        return int(told.read().split()[0]) / 1e9


class Room:
    """A folder with a model and the files of a session."""

    def __init__(self, tool, folder, model):
        self.tool, self.folder = tool, folder
        with open(f'{folder}/shop.smithy', 'w', encoding='utf-8') as file:
            file.write(model)

    def words(self, front, back):
        return [self.tool, 'cross', 'shop.smithy', 'shop#Shop', front, back, 'back.example', 'answers', 'requests']

    def put(self, asked, answered, turns):
        for name, piece in (('input', asked), ('answers', answered)):
            with open(f'{self.folder}/{name}', 'wb') as file:
                file.write(piece * turns)

    def begun(self, words):
        with open(f'{self.folder}/input', 'rb') as given:
            return subprocess.Popen(words, cwd=self.folder, stdin=given, stdout=subprocess.DEVNULL)

    def once(self, words):
        """Seconds of the processor; the session must have closed."""
        run = self.begun(words)
        _, status, used = os.wait4(run.pid, 0)
        run.returncode = os.waitstatus_to_exitcode(status)
        if run.returncode:
            sys.exit(f'{" ".join(words)} ends with {run.returncode}')
        return used.ru_utime + used.ru_stime

    def held(self, words):
        """The most kilobytes, as seen every millisecond: what a process held before it was this program counts in no other way."""
        run, most = self.begun(words), 0
        while run.poll() is None:
            with open(f'/proc/{run.pid}/status', encoding='ascii') as told:
                seen = re.search(r'VmHWM:\s+(\d+)', told.read())
            most = int(seen[1]) if seen else most
            time.sleep(0.001)
        return most

    def instructions(self, words):
        counted = ['valgrind', '--tool=callgrind', '--callgrind-out-file=/dev/null', *words]
        with open(f'{self.folder}/input', 'rb') as given:
            run = subprocess.run(counted, cwd=self.folder, stdin=given, stdout=subprocess.DEVNULL, stderr=subprocess.PIPE, text=True)
        return int(re.findall(r'Collected : (\d+)', run.stderr)[-1])

    def turn(self, front, back, asked, answered, turns, runs=7):
        """Microseconds of a turn."""
        words, least = self.words(front, back), []
        for number in (turns, 2 * turns):
            self.put(asked, answered, number)
            least.append(min(self.once(words) for _ in range(runs)))
        return (least[1] - least[0]) / turns * 1e6

    def turn_loaded(self, front, back, asked, answered, turns):
        """The same of one run, behind a first turn: for models that take longer to load than turns. Each answer is a head alone."""
        self.put(b'', answered, turns + 1)
        run = subprocess.Popen(self.words(front, back), cwd=self.folder, stdin=subprocess.PIPE, stdout=subprocess.PIPE)
        self.ask(run, asked, 1)
        before = spent(run.pid)
        for done in range(0, turns, AT_ONCE):
            self.ask(run, asked, min(AT_ONCE, turns - done))
        took = spent(run.pid) - before
        run.stdin.close()
        if run.wait():
            sys.exit(f'{" ".join(run.args)} ends with {run.returncode}')
        return took / turns * 1e6

    @staticmethod
    def ask(run, asked, times):
        """Requests that are answered with 200, so few that pipes hold them."""
        run.stdin.write(asked * times)
        run.stdin.flush()
        seen = b''
        while seen.count(b'\r\n\r\n') < times:
            piece = run.stdout.read1(65_536)
            if not piece:
                sys.exit(f'{" ".join(run.args)} ends behind {seen[-200:]}')
            seen += piece
        if seen.count(b'HTTP/1.1 200 OK\r\n') != times:
            sys.exit(f'{" ".join(run.args)} answers {seen[:200]}')

    def counted(self, front, back, asked, answered, turns):
        """Instructions of a turn."""
        words, seen = self.words(front, back), []
        for number in (turns, 2 * turns):
            self.put(asked, answered, number)
            seen.append(self.instructions(words))
        return (seen[1] - seen[0]) // turns
