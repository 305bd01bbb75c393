"""What the tests share: the driver as a command, requests put to it, and the closing line."""
import collections
import itertools
import os
import re
import subprocess
import sys

LIMIT = 300  # seconds that any run of the driver or the oracle may take
HERE = os.path.dirname(os.path.abspath(__file__))
JUDGE = os.path.join(os.path.dirname(HERE), 'target', 'judge', 'judge')
LETTERS = 'MIDNSHP=X'
FILL = 2779096485  # what stands in a lent output of ops before the call
DRIVER = os.environ.get('DRIVER', os.path.join(HERE, 'driver'))


def here(name):
    return os.path.join(HERE, name)


def original_at_hand():
    """Builds the judge; false where the original's sources are not there."""
    status = subprocess.run([here('build-judge')]).returncode
    if status not in (0, 3):
        sys.exit(f'tests/build-judge ended with status {status}')
    return status == 0


def ask(command, requests):
    """The answers of a command that speaks the protocol, one for each request."""
    sent = b''.join(request + b'\n' for request in requests)
    ran = subprocess.run(command, input=sent, stdout=subprocess.PIPE, timeout=LIMIT)
    answers = ran.stdout.split(b'\n')[:-1]
    if ran.returncode or len(answers) != len(requests):
        sys.exit(f'{command[0]} ended with status {ran.returncode} after {len(answers)} answers to {len(requests)} requests')
    return answers


def unfinished(request):
    """What the driver answers to a last line with no newline."""
    return subprocess.run([DRIVER], input=request, stdout=subprocess.PIPE, timeout=LIMIT).stdout


def ops(cigar):
    """The op numbers of a CIGAR text."""
    return [int(length) * 16 + LETTERS.index(letter) for length, letter in re.findall(r'(\d+)(.)', cigar)]


def listed(values):
    """A list as answers have it, runs of equal values as V*N."""
    runs = [(value, len(list(run))) for value, run in itertools.groupby(values)]
    return ','.join(str(value) if times == 1 else f'{value}*{times}' for value, times in runs) or '-'


def short(line):
    text = line.decode('utf-8', 'replace')
    return text if len(text) <= 400 else f'{text[:400]}.. ({len(text)} characters)'


def show(request, expected, got, words=('due', 'driver')):
    print(f'  request: {short(request)}\n  {words[0]}: {short(expected)}\n  {words[1]}: {short(got)}')


def pairs_of(name):
    """The request and the answer of each line that is not a comment, split at the tab."""
    with open(here(name), 'rb') as file:
        lines = [line.rstrip(b'\n') for line in file if not line.startswith(b'#')]
    return [tuple(line.split(b'\t')) for line in lines]


def missing_calls():
    """The calls that the library lacks, and those of them that tests/calls-not-yet lists."""
    have = set(subprocess.run([DRIVER, '--calls'], stdout=subprocess.PIPE, check=True).stdout.split())
    named = {request.split(b' ')[0] for request, _ in pairs_of('recorded')}
    listed = set()
    if os.path.exists(here('calls-not-yet')):
        with open(here('calls-not-yet'), 'rb') as file:
            listed = set(file.read().split())
    return named - have, (named - have) & listed


def compare(words, command, missing, notice):
    """Puts the generated requests to the oracle and to a command that speaks the protocol, and compares every line whole: the cases of each call and how
    many of them differ. `notice` is told of each difference: the request, and the two answers."""
    cases, differ = collections.Counter(), collections.Counter()
    oracle = subprocess.Popen([JUDGE, 'pairs', *words], stdout=subprocess.PIPE, bufsize=1 << 20)
    requests = subprocess.Popen([JUDGE, 'generate', *words], stdout=subprocess.PIPE)
    other = subprocess.Popen(command, stdin=requests.stdout, stdout=subprocess.PIPE, bufsize=1 << 20)
    requests.stdout.close()
    for pair, got in itertools.zip_longest(oracle.stdout, other.stdout, fillvalue=b'nothing: it ended\n'):
        call = pair[:pair.find(b' ')]
        cases[call] += 1
        if pair.endswith(b'\t' + got):
            continue
        request, _, due = pair.rstrip(b'\n').partition(b'\t')
        if call not in missing or due.startswith(b'MISMATCH'):
            differ[call] += 1
            notice(request, due, got.rstrip(b'\n'))
    for process in (oracle, requests, other):
        if process.wait():
            differ[b'a process that failed'] += 1
    return cases, differ


def written_cases(groups):
    """Puts each group's requests to the driver, and to the oracle where it is at hand, and holds the answers to those that are written beside them; a group is one test."""
    listed_missing = missing_calls()[1]
    commands = [('driver', [DRIVER])] + ([('oracle', [JUDGE, 'oracle'])] if original_at_hand() else [])
    passed = failed = skipped = 0
    for name, cases in groups.items():
        cases = [(request.encode(), due.encode()) for request, due in cases]
        kept = [case for case in cases if case[0].split(b' ')[0] not in listed_missing]
        skipped += len(cases) - len(kept)
        if not kept:
            print(f'{name}: not run')
            continue
        wrong = 0
        for who, command in commands:
            for (request, due), got in zip(kept, ask(command, [request for request, _ in kept])):
                if due != got:
                    show(request, due, got, words=('written', who))
                    wrong += 1
        print(f'{name}: {len(kept)} cases, {wrong} differ')
        passed, failed = (passed, failed + 1) if wrong else (passed + 1, failed)
    if skipped:
        print(f'{skipped} cases not run, of calls that tests/calls-not-yet lists')
    close(passed, failed)


def close(passed, failed):
    print(f'{passed} passed, {failed} failed')
    sys.exit(1 if failed else 0)
