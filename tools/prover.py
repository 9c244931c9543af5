"""The kit's commands, and what their logs say."""
import os
import re
import shutil
import subprocess
import sys
import time

from repository import files_below, read

# What the prover says where a proof file no longer fits the code: a goal or a step has another name. No fact was tried.
UNFIT = ('can be named from here', 'not in scope', 'no field', 'takes no argument', 'too many arguments', 'is not a function',
         'this pattern needs a function', 'names what the edit took away')
PARTS = ('src', 'specs', 'proofs')
# modules that a reader knows
KNOWN = re.compile(r'\b(?:mathlib\.Core\.\w+|Prim\.Native\.Nat|native\.Mathlib\.\w+|lib\.\w+|mir\.(?:Val|Syntax)|denote\.(?:Bor|MutBor))\.'
                   r'|\bRattle\.\w+\.(?:specs|proofs)\.(?:contracts\.|declared\.)?')
# where `rt check` keeps its work, in a crate's folder
KEPT = os.path.join('out', 'incremental')


def is_unfit(error):
    return any(words in error for words in UNFIT)


def without_modules(text):
    """A text of the prover's without the modules that a reader knows."""
    return KNOWN.sub('', text)


def compiler_errors(log):
    """[(file, line, error)] of what the compiler refused; such a log tells of no function."""
    found = re.findall(r'^(?:\./)?(src/\S+?):(\d+):\d+: (error\[.*)', log, re.M)
    return [] if re.search(r'^fn \S+: ', log, re.M) else [(name, int(line), error) for name, line, error in found]


def fresh_copy(source, copy, parts=PARTS):
    """The crate of one folder in another; with KEPT among the parts also what its checks kept."""
    shutil.rmtree(copy, ignore_errors=True)
    os.makedirs(copy)
    for part in parts:
        if os.path.isdir(os.path.join(source, part)):
            shutil.copytree(os.path.join(source, part), os.path.join(copy, part))


def run_rt(repository, crate, *words):
    """What `rt` says in a crate's folder, and its status."""
    run = subprocess.run(['rt'] + list(words), cwd=repository.folder(crate), stdout=subprocess.PIPE, stderr=subprocess.STDOUT,
                         stdin=subprocess.DEVNULL, text=True)
    return run.stdout, run.returncode


class Kit:
    """The kit that `rt` belongs to, asked about copies of crates. `rt` works in the repository alone, so its prover is called as it does."""

    def __init__(self, repository):
        self.repository = repository
        rt = shutil.which('rt')
        self.home = os.environ.get('RATTLE_HOME') or rt and os.path.dirname(os.path.dirname(os.path.realpath(rt)))
        self.rattle = os.path.join(self.home or '', 'bin', 'rattle')
        if not os.path.isfile(self.rattle):
            sys.exit('no Rattle kit: have `rt` in PATH or set RATTLE_HOME')

    def prove(self, crate):
        """Has `rt` prove the crate, which builds the libraries below it and keeps its work."""
        said, status = run_rt(self.repository, crate, 'check')
        if status:
            sys.exit('%s is not proved: %s' % (crate, said[-2000:]))

    def words(self, crate):
        """The words that name a crate, its libraries and the logic, as `rt check` gives them."""
        repository, kits = self.repository, os.path.join(self.home, 'rlibs')
        words = ['--crate-name', crate, os.path.join('src', 'main.rt' if repository.is_program(crate) else 'lib.rt')]
        for name in ['std'] + repository.needs[crate]:
            folder = os.path.join(repository.folder(name), 'out', 'rlib') if name in repository.needs else kits
            rlib = os.path.join(folder, name + '.rlib')
            if not os.path.exists(rlib):
                said, _ = run_rt(repository, crate, 'check', '--only', '')  # builds the libraries, and proves nothing of the crate
            if not os.path.exists(rlib):
                sys.exit('%s is not proved yet: %s' % (name, said[-2000:]))
            words += ['--extern', '%s=%s' % (name, rlib)]
        for folder in [kits] + [os.path.join(repository.folder(name), 'out', 'rlib') for name in repository.below(crate)]:
            words += ['-L', 'dependency=' + folder]
        words += ['--antt-project', os.path.join(self.home, 'rattle', 'logic', 'antt-project.json')]
        words += ['--logic-built', os.path.join(self.home, 'logic_built'), '--links', crate + '=']
        return words + ['--crate-type', 'staticlib'] * (crate in repository.static)

    def check(self, crate, folder, keeps, seconds=None, more=()):
        """(status, log, seconds) of a check of the crate as it stands in a folder; the status of one that takes too long is None. One that
        keeps its work begins with what is kept there, which is not so of one from nothing."""
        command = [self.rattle, 'check'] + self.words(crate) + ['--jobs', '1'] + list(more)
        command += ['--incremental', KEPT] if keeps else []
        os.makedirs(os.path.join(folder, 'out'), exist_ok=True)
        began = time.time()
        try:
            run = subprocess.run(command, cwd=folder, stdout=subprocess.PIPE, stderr=subprocess.STDOUT, stdin=subprocess.DEVNULL,
                                 text=True, timeout=seconds)
        except subprocess.TimeoutExpired:
            return None, '', time.time() - began
        return run.returncode, run.stdout, time.time() - began

    def mir(self, crate, folder, functions):
        """{function: MIR} of some functions of the crate as it stands in a folder, or what the prover said in its place."""
        made = os.path.join(folder, 'generated')
        shutil.rmtree(made, ignore_errors=True)
        starts = [word for function in functions for word in ('--start', function)]
        status, log, _ = self.check(crate, folder, True, None, ['--generated', made] + starts)
        if status:
            return log
        found = {}
        for path in files_below(made, '.antt'):
            place = os.path.relpath(path, made).split(os.sep)
            if place[0].endswith('-proofs') and place[-2:] == ['Code', 'Mir.antt']:
                found['::'.join([crate] + place[1:-2])] = read(path)
        shutil.rmtree(made, ignore_errors=True)
        return found
