"""Where the programs are that `oracle/compare` and `bench/run` run, how they are built, and how they are asked."""
import os, shutil, subprocess, sys, time
import scripts

ROOT = os.path.dirname(os.path.dirname(os.path.abspath(__file__)))
BUILT = ROOT + '/target/oracle'
BRUTE = BUILT + '/brute/brute'
PORTED = BUILT + '/rust/target/release/ported'


def build_oracle():
    """Builds the oracle unless what is built is newer than its sources; False where it can't be built."""
    if os.path.exists(BRUTE) and os.path.getmtime(BRUTE) > newest_source():
        return True
    print('building the oracle', file=sys.stderr)
    return subprocess.run([ROOT + '/oracle/build'], stdout=subprocess.DEVNULL).returncode == 0


def newest_source():
    sources = ('brute', 'rust', 'gen', 'judge', 'lastmoves', 'pgn', 'histories', 'solutions', 'screen', 'scripts.py', 'table.py', 'editions.py',
               'records.py', 'verdicts.py', 'volume', 'volumes.py')
    parts = [ROOT + '/oracle/' + name for name in sources]
    files = [os.path.join(d, f) for p in parts for d, _, names in os.walk(p) for f in names]
    return max(map(os.path.getmtime, files + parts))


def programs(built, names=('lastmoves', 'ask')):
    """The commands of these programs: LASTMOVES, STEP, ASK, SHOW_TABLES, HISTORIES, SOLUTIONS of the environment, else target/bin's, proved first unless
    `built`."""
    for name in names:
        if name.upper() not in os.environ and not built:
            build(name)
    return [[os.environ[n.upper()]] if n.upper() in os.environ else command(ROOT + '/target/bin/' + n) for n in names]


def build(name):
    """Proves and builds a program by `rt run` in its crate, and copies it to target/bin, dated to the beginning of the build, as bin/proved.sh does. rt also
    runs it, on no input; how that ends says nothing, so it has been built where rt says that it is running it."""
    began, running, program = time.time(), False, ROOT + '/target/bin/' + name
    with subprocess.Popen(['rt', 'run'], cwd=ROOT + '/crates/' + name, stdin=subprocess.DEVNULL, stdout=subprocess.DEVNULL, stderr=subprocess.PIPE,
                          text=True, errors='replace') as rt:
        for line in rt.stderr:
            sys.stderr.write(line)
            running = running or line.startswith('rt: running out/%s;' % name)
    if not running:
        sys.exit('rt run in crates/%s failed' % name)
    os.makedirs(ROOT + '/target/bin', exist_ok=True)
    shutil.copy(ROOT + '/crates/%s/out/%s' % (name, name), program + '.new')
    os.utime(program + '.new', (began, began))
    os.replace(program + '.new', program)


def command(program):
    """How a built program is started."""
    if not os.path.exists(program):
        sys.exit('no program ' + program)
    return [program]


def load(name):
    """A script of the built oracle as a module."""
    return scripts.load(BUILT, name)


def run(command, lines):
    return run_file(command, b''.join(l + b'\n' for l in lines))


def run_file(command, file):
    r = subprocess.run(command, input=file, stdout=subprocess.PIPE)
    if r.returncode:
        sys.exit('%s: exit status %d' % (' '.join(command), r.returncode))
    return r.stdout


def ask(command, lines):
    return run(command, lines).split(b'\n')[:-1]
