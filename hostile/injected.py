"""Runs a program under the preloaded library of faults.c and judges its answers."""
import errno
import fcntl
import os
import re
import struct
import subprocess
from pathlib import Path

FIELDS = ('allocation_at allocation_on allocation_chance read_at read_on read_errno read_most write_at write_on '
          'write_errno write_most error_at error_on error_errno error_most thread_at thread_on delay delay_every '
          'change_at change_to seed seconds').split()
COUNTS = 'allocations reads writes errors threads faults shortened'.split()
ANSWER = struct.Struct('<%dq' % (len(COUNTS) + 3))
JOBS, ANSWERS, ALWAYS, HALF, ANY = 198, 199, 1, -1, -2
FAULT_LINES = {7: b'qntn: memory\n', 5: b'qntn: read fault\n', 6: b'qntn: write fault\n'}
NAMED = {0: re.compile(rb''), 2: re.compile(rb'qntn: usage word \d+\n'), 7: re.compile(rb'qntn: memory\n'),
         3: re.compile(rb'qntn: malformed F\d+( tensor \d+ part \d+ item -?\d+)?\n'),
         4: re.compile(rb'qntn: passed step \d+ at \[[0-9,]*\] offset \d+\n'),
         5: re.compile(rb'qntn: read fault\n'), 6: re.compile(rb'qntn: write fault\n')}
SECONDS = 120
MANY = 20000  # of so many allocations and more only every fifth fails


def build(folder):
    """Compiles faults.c and returns the library."""
    library = Path(folder) / 'faults.so'
    source = Path(__file__).with_name('faults.c')
    subprocess.run(['gcc', '-O1', '-shared', '-fPIC', '-o', library, source], check=True)
    return str(library)


class Answer:
    def __init__(self, status, counts, out, err):
        self.signal = os.WTERMSIG(status) if os.WIFSIGNALED(status) else 0
        self.status = os.WEXITSTATUS(status)
        self.counts, self.out, self.err = counts, out, err

    def text(self):
        end = 'signal %d' % self.signal if self.signal else 'status %d' % self.status
        return '%s, out %s, err %s' % (end, short(self.out), short(self.err))

    def same(self, other):
        return (self.signal, self.status, self.out, self.err) == (other.signal, other.status, other.out, other.err)

    def named(self):
        form = NAMED.get(self.status)
        return not self.signal and form and form.fullmatch(self.err) and (self.status == 0) == bool(self.out)


def short(text):
    return repr(text if len(text) <= 120 else text[:90] + b' .. ' + text[-20:])[1:] + ' (%d bytes)' % len(text)


class Server:
    """One program with its words and document, started once; `run` runs it with the faults of a job."""

    def __init__(self, library, program, words, document, processors=None):
        jobs_in, self.jobs = os.pipe()
        self.answers, answers_out = os.pipe()

        def prepare():
            # Above both numbers first, so that neither hides the other.
            first, second = (fcntl.fcntl(end, fcntl.F_DUPFD, 300) for end in (jobs_in, answers_out))
            os.dup2(first, JOBS)
            os.dup2(second, ANSWERS)
            if processors:
                os.sched_setaffinity(0, processors)

        self.process = subprocess.Popen(
            [program, *words], env={'LD_PRELOAD': library, 'HOSTILE_DOCUMENT': document}, preexec_fn=prepare,
            close_fds=False, stdin=subprocess.DEVNULL, stdout=subprocess.DEVNULL)
        os.close(jobs_in)
        os.close(answers_out)
        self.stream = os.fdopen(self.answers, 'rb')

    def run(self, **job):
        job.setdefault('seconds', SECONDS)
        os.write(self.jobs, struct.pack('<%dq' % len(FIELDS), *(job.get(name, 0) for name in FIELDS)))
        head = self.stream.read(ANSWER.size)
        if len(head) < ANSWER.size:
            raise RuntimeError('the program does not load the library: it has to be linked dynamically with glibc')
        status, *counts, out, err = ANSWER.unpack(head)
        return Answer(status, dict(zip(COUNTS, counts)), self.stream.read(out), self.stream.read(err))

    def close(self):
        os.close(self.jobs)
        self.process.wait()
        self.stream.close()


def judge(job, answer, plain):
    """How an answer under faults is allowed, as a few words; None where it isn't. `plain` is the one without them."""
    if answer.signal:
        return None
    struck = answer.counts['faults']
    err_fails = 'error_at' in job or 'error_most' in job

    def says(line):
        return line.startswith(answer.err) if err_fails else answer.err == line

    told = {name: job[name] for name in ('read_errno', 'write_errno') if name in job}
    hidden = struck and any(code != errno.EINTR for code in told.values())
    if answer.status == plain.status and answer.out == plain.out and says(plain.err):
        # A fault that the program was told of has to show, but an interrupt may be tried again.
        return None if hidden else 'as without the fault'
    memory = {'allocation_at', 'allocation_chance', 'thread_at'} & set(job)
    if memory and struck and answer.status == 9 and not (answer.out or answer.err or answer.counts['reads']):
        return 'no words (9)'
    if memory and answer.status == 7 and not answer.out and says(FAULT_LINES[7]):
        return 'memory'
    if struck and 'read_errno' in job and answer.status == 5 and not answer.out and says(FAULT_LINES[5]):
        return 'read fault'
    if struck and 'write_errno' in job and answer.status == 6 and says(FAULT_LINES[6]):
        return 'write fault' if plain.out.startswith(answer.out) and answer.out != plain.out else None
    return None


READ_ERRORS = [errno.EIO, errno.EINTR, errno.EAGAIN]
WRITE_ERRORS = [errno.EIO, errno.EINTR, errno.EAGAIN, errno.ENOSPC, errno.EPIPE, 0]


def jobs(plain, size, step=1):
    """The jobs for one document as (kind, faults): each call in turn; or every `step`th allocation and byte."""
    count = plain.counts
    for place in range(1, count['allocations'] + 1, step * 5 if count['allocations'] > MANY else step):
        yield 'allocation fails once', dict(allocation_at=place)
        yield 'allocations fail from there on', dict(allocation_at=place, allocation_on=ALWAYS)
    for seed in range(0, 200, step):
        yield 'allocations fail by chance', dict(allocation_chance=2 << seed % 12, seed=seed)
    for place in range(1, count['threads'] + 1):
        yield 'thread refused once', dict(thread_at=place)
        yield 'threads refused from there on', dict(thread_at=place, thread_on=ALWAYS)
    yield from read_jobs(count['reads'], size, step)
    yield from write_jobs(count, len(plain.out), step)


def read_jobs(reads, size, step):
    for code in READ_ERRORS:
        name = errno.errorcode[code]
        for place in range(1, reads + 1):
            yield 'read fails once, ' + name, dict(read_at=place, read_errno=code)
            on = 3 if code == errno.EINTR else ALWAYS
            yield 'reads fail from there on, ' + name, dict(read_at=place, read_on=on, read_errno=code)
        for place in range(1, size + 2 if reads else 1, step):
            yield 'reads of 1 byte, one fails, ' + name, dict(read_at=place, read_errno=code, read_most=1)
    if reads:
        for most in (1, 2, 7, HALF):
            yield 'short reads', dict(read_most=most)
        for seed in range(0, 20, step):
            yield 'short reads', dict(read_most=ANY, seed=seed)


def write_jobs(count, length, step):
    for code in WRITE_ERRORS:
        name = errno.errorcode.get(code, 'nothing taken')
        for place in range(1, count['writes'] + 1):
            yield 'write fails once, ' + name, dict(write_at=place, write_errno=code)
            on = 3 if code == errno.EINTR else ALWAYS
            yield 'writes fail from there on, ' + name, dict(write_at=place, write_on=on, write_errno=code)
        for place in range(1, length + 1, step if length < 4096 else step * (length // 2048)):
            yield 'writes of 1 byte, one fails, ' + name, dict(write_at=place, write_errno=code, write_most=1)
        for place in range(1, 41 if count['errors'] else 1):
            fault = dict(error_at=place, error_on=ALWAYS, error_errno=code, error_most=1)
            yield 'writes to standard error fail, ' + name, fault
    if count['writes']:
        for most in (1, 2, 7, HALF):
            yield 'short writes', dict(write_most=most, error_most=most)
        for seed in range(0, 20, step):
            yield 'short writes', dict(write_most=ANY, error_most=ANY, seed=seed)
    if count['allocations']:
        half = count['allocations'] // 2 + 1
        both = dict(allocation_at=half, allocation_on=ALWAYS, error_at=1, error_on=ALWAYS, error_errno=errno.EIO)
        yield 'no memory and no standard error', both


def byte_jobs(document, step=1):
    """Every proper prefix, and the document with one byte changed: each has a named answer."""
    for place in range(1, len(document.rstrip()) + 1, step):
        yield 'proper prefix', dict(read_at=place, read_on=ALWAYS, read_errno=0, read_most=1)
    for place in range(1, len(document) + 1, step):
        for change in b'9-"[]0,\xff\\':
            if document[place - 1] != change:
                yield 'byte changed', dict(change_at=place, change_to=change)


def judge_bytes(kind, answer):
    """What a cut or changed document may get; None where it gets something else. No memory is wanting here."""
    if not answer.named() or answer.status not in (0, 3, 4):
        return None
    if kind == 'proper prefix' and not answer.err.startswith(b'qntn: malformed F2'):
        return None
    return ('answer' if answer.status == 0 else 'passed' if answer.status == 4 else 'malformed')
