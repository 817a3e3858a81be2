"""Copies of the repository on which tests/words and tests/forced try changes, one after another, and what the prover says of each."""
import glob
import os
import re
import shutil
import subprocess
import tempfile

ROOT = os.path.dirname(os.path.dirname(os.path.abspath(__file__)))


def sources(folder):
    """Copies what the crates are made of into a new folder, and not what the toolchain keeps in crates/*/out."""
    made = tempfile.mkdtemp()
    shutil.copy(os.path.join(folder, 'crates.txt'), made)
    shutil.copytree(os.path.join(folder, 'crates'), os.path.join(made, 'crates'), ignore=shutil.ignore_patterns('out'))
    return made


def proved():
    """A copy in which every crate is proved. What the toolchain has kept of the same files on this machine is not proved again."""
    folder = sources(ROOT)
    subprocess.run(['rt', 'all', 'check'], cwd=folder, check=True, stdout=subprocess.DEVNULL)
    return folder


class Trial:
    """A copy of a proved folder."""

    def __init__(self, proved_folder):
        self.folder = sources(proved_folder)
        self.held = {}

    def fresh(self):
        """Takes back all that was written. What the toolchain keeps goes by the files' text, so it may stay."""
        for name, text in self.held.items():
            with open(self.path(name), 'w') as file:
                file.write(text)
        self.held = {}

    def path(self, name):
        return os.path.join(self.folder, name)

    def read(self, name):
        with open(self.path(name)) as file:
            return file.read()

    def write(self, name, text):
        self.held.setdefault(name, self.read(name))
        with open(self.path(name), 'w') as file:
            file.write(text)

    def said(self, crate=None):
        """None where this crate, or all, are proved; else the crate that is not, and its errors, or what was said instead."""
        where = self.path(f'crates/{crate}') if crate else self.folder
        words = ['rt', 'check', '--jobs', '1'] if crate else ['rt', 'all', 'check', '--jobs', '1']
        run = subprocess.run(words, cwd=where, capture_output=True, text=True)
        if run.returncode == 0:
            return None
        out = run.stdout + run.stderr
        found = re.search(r'^(\w+): failed|^rt: the library (\w+) did not build', out, re.M)
        name = (found.group(1) or found.group(2)) if found else crate or '?'
        return name, re.findall(r'error(?:\[[\w-]+\])?: (.*)', out) or [out[-200:]]


def edits_of(crate):
    """The must-fail edits of a crate: (name, [(file, old, new)])."""
    for path in sorted(glob.glob(os.path.join(ROOT, 'crates', crate, 'must-fail', '*.edit'))):
        file, old, pairs = '', '', []
        with open(path) as lines:
            for line in lines.read().split('\n'):
                if line.startswith('file: '):
                    file = line[6:]
                elif line.startswith('old: '):
                    old = line[5:]
                elif line.startswith('new:'):
                    pairs.append((file, old, line[4:].removeprefix(' ')))
        yield os.path.basename(path)[:-5], pairs
