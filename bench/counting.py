"""How the scripts of bench/ ask for boards, time a program and count its instructions."""
import os, re, resource, shutil, subprocess, sys, tempfile
HERE = os.path.dirname(os.path.abspath(__file__))
sys.path.insert(0, os.path.dirname(HERE) + '/oracle')
from programs import ROOT, command

TEXTS = open(HERE + '/boards.txt', 'rb').read().splitlines()
# The program of each question, and what stands before the text in its line.
OURS = {'lastmoves': ('lastmoves', b''), 'ask count': ('ask', b'count\t'), 'ask strict': ('ask', b'strict\t')}
STRIDE = 10
VALGRIND = ['valgrind', '--tool=exp-bbv', '--instr-count-only=yes', '--bb-out-file=/dev/null']
VALGRIND_SAYS = re.compile(rb'Total instructions: (\d+)\n.*Total reps: (\d+)\n.*Unique reps: (\d+)')


def lines(texts, before=b''):
    return b''.join(before + t + b'\n' for t in texts)


def folders():
    """The folders of programs in the arguments; without one, target/bin as it is."""
    return sys.argv[1:] or [ROOT + '/target/bin']


def ours(folder):
    """The command of each question to the programs of a folder, and what stands before the text."""
    return {name: (command('%s/%s' % (folder, program)), before) for name, (program, before) in OURS.items()}


def timed(command, data, output=subprocess.DEVNULL):
    """The user time of one run, in seconds, and what it wrote into a pipe. Its input is a file, so that no other process feeds it meanwhile."""
    with tempfile.TemporaryFile() as file:
        file.write(data)
        file.seek(0)
        before = resource.getrusage(resource.RUSAGE_CHILDREN).ru_utime
        wrote = subprocess.run(command, stdin=file, stdout=output, check=True).stdout
        return resource.getrusage(resource.RUSAGE_CHILDREN).ru_utime - before, wrote


def counter():
    """What counts instructions here, or None."""
    return 'valgrind' if shutil.which('valgrind') else None


def counted(command, data):
    """The instructions of one run as the machine counts them, and as callgrind does, which takes each element that a `rep movs` or `rep stos` moves for one."""
    said = subprocess.run(VALGRIND + command, input=data, stdout=subprocess.DEVNULL, stderr=subprocess.PIPE, check=True).stderr
    instructions, elements, reps = map(int, VALGRIND_SAYS.search(said).groups())
    return [instructions, instructions - reps + elements]


def a_board(command, before, texts):
    """What `counted` tells of a board, less an empty input."""
    many, none = counted(command, lines(texts, before)), counted(command, b'')
    return [(m - n) / len(texts) for m, n in zip(many, none)]
