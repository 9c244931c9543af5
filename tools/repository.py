"""The repository that a tool is run in: its root, its crates, and which of them are programs."""
import os
import signal
import sys

# `| head` ends a tool quietly
signal.signal(signal.SIGPIPE, signal.SIG_DFL)


def find_root():
    """The folder with crates.txt, this one or one above it."""
    folder = os.getcwd()
    while not os.path.isfile(os.path.join(folder, 'crates.txt')):
        above = os.path.dirname(folder)
        if above == folder:
            sys.exit('no crates.txt in this folder or above it: run this inside the repository')
        folder = above
    return folder


class Repository:
    def __init__(self, root=None):
        self.root = os.path.abspath(root) if root else find_root()
        # what tools keep; git passes it over
        self.out = os.path.join(self.root, 'out')
        self.needs, self.static = {}, set()
        with open(os.path.join(self.root, 'crates.txt'), encoding='utf8') as listed:
            for line in listed:
                head, colon, rest = line.split('#')[0].partition(':')
                if colon:
                    # after the name may stand `staticlib` and other words
                    name, *words = head.split()
                    self.needs[name] = rest.split()
                    if 'staticlib' in words:
                        self.static.add(name)

    def folder(self, crate):
        return os.path.join(self.root, 'crates', crate)

    def known(self, crate):
        """The crate's name; the tool ends where crates.txt lacks it."""
        if crate not in self.needs:
            sys.exit('crates.txt has no crate %s' % crate)
        return crate

    def below(self, crate):
        """The crates of this repository that a crate stands on."""
        found = []
        for need in self.needs.get(crate, ()):
            found += [name for name in self.below(need) + [need] if name in self.needs and name not in found]
        return found

    def is_program(self, crate):
        return os.path.isfile(os.path.join(self.folder(crate), 'src', 'main.rt'))

    def only_for_programs(self, crate):
        """Whether it is a program, or a library that nothing but such a crate uses."""
        users = [user for user in self.needs if crate in self.needs[user]]
        return self.is_program(crate) or bool(users) and all(map(self.only_for_programs, users))


def files_below(folder, ending=''):
    """The files of a folder and the folders in it, sorted."""
    found = []
    for place, _, names in os.walk(folder):
        found += [os.path.join(place, name) for name in names if name.endswith(ending)]
    return sorted(found)


def read(path):
    with open(path, encoding='utf8') as file:
        return file.read()


def write(path, text):
    os.makedirs(os.path.dirname(path), exist_ok=True)
    with open(path, 'w', encoding='utf8') as file:
        file.write(text)
