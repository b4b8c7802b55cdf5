"""Compares the answers of replay_schedule, over csq_replay.h, with those of csqsim schedule:

    replay_beside_csqsim.py REPLAY_SCHEDULE CSQSIM COUNT SCHEDULE..

each of these schedules, and as many random ones. Of a step that comes at the wrong time the words are compared too, with the
line since which its pass is inside of a call, and the next step. It ends with a line, and with 0 if all are the same."""
import re
import subprocess
import sys

# What csqsim says of a step that comes at the wrong time, and what stands before it.
TIMELY = re.compile(r'<stdin>:\d+:\d+: (p\d+ .* is refused: p\d+ (?:has had the lock|has been inside|is inside no call).*)')


def answer_of(words, schedule):
    """Its status, its answer, and what it says of a step that comes at the wrong time."""
    ended = subprocess.run(words, input=schedule, capture_output=True, text=True, check=False)
    return ended.returncode, ended.stdout, ended.stderr


def compared(program, csqsim, schedule):
    """What csqsim answers, if the other answers the same."""
    status, answer, said = answer_of([csqsim, 'schedule'], schedule)
    timely = TIMELY.search(said)
    wanted = (status, answer, timely[1] + '\n' if timely else '')
    got = answer_of([program], schedule)
    if got != wanted:
        sys.exit(f'this schedule\n{schedule}{got} is not {wanted}')
    return answer


def drawn(program, seed):
    words = [program, str(seed), str(1 + seed % 60)]
    return subprocess.run(words, capture_output=True, text=True, check=True).stdout


def main():
    program, csqsim, count, *names = sys.argv[1:]
    refused = 0
    for name in names:
        with open(name, encoding='utf-8') as file:
            compared(program, csqsim, file.read())
    for seed in range(int(count)):
        refused += ' refused ' in compared(program, csqsim, drawn(program, seed))
    print(f'passed {len(names)} schedules and {count} random ones, {refused} of them with a refused step')


if __name__ == '__main__':
    main()
