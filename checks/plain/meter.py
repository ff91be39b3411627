"""What a run takes: its time, and its instructions as callgrind counts them. For checks/plain/measure and for those
of bindings/speed."""
import os
import shutil
import statistics
import subprocess
import tempfile

has_counter = shutil.which('valgrind') is not None


def seconds(words, source='/dev/null', out='/dev/null'):
    """The user and system time of a run with this input, whose output goes to that file."""
    pid = os.fork()
    if pid == 0:
        os.dup2(os.open(source, os.O_RDONLY), 0)
        os.dup2(os.open(out, os.O_WRONLY | os.O_CREAT | os.O_TRUNC, 0o600), 1)
        os.execv(words[0], words)
    _, status, used = os.wait4(pid, 0)
    assert status == 0, words
    return used.ru_utime + used.ru_stime


def take_turns(one, other, pairs, source='/dev/null'):
    """The times of two programs that take turns so often, of which each is first every other time."""
    times = [], []
    for k in range(pairs):
        for at in (0, 1) if k % 2 else (1, 0):
            times[at].append(seconds((one, other)[at], source))
    return times


def ratios(times):
    """The ratios of the pairs: the median, the least and the greatest."""
    found = [a / b for a, b in zip(*times)]
    return statistics.median(found), min(found), max(found)


def instructions(words, source='/dev/null'):
    with tempfile.NamedTemporaryFile() as calls, open(source, 'rb') as given:
        out = subprocess.run(['valgrind', '--tool=callgrind', f'--callgrind-out-file={calls.name}', *words],
            stdin=given, capture_output=True, text=True).stderr
    return int(out.split('Collected :')[1].split()[0])


def instructions_each(words_of, few, many):
    """The instructions of each of the units of which a run has as many as `words_of` is told."""
    return (instructions(words_of(many)) - instructions(words_of(few))) / (many - few)
