"""A repository in a temporary folder for the prover to work in: crates of this one, or their definitions alone.

Nothing is written in this repository. What `rt check` proved here already it takes over there, as long as it is left unchanged.
"""
import pathlib, re, shutil, subprocess, tempfile

ROOT = pathlib.Path(__file__).resolve().parent.parent
HISTORY = ['words', 'facts', 'numbers', 'lines', 'history']
DEFINITIONS = HISTORY + ['rows', 'guide', 'classes', 'book', 'tables', 'demands']
TYPE = re.compile(r'^pub type [^\n]*\n|^(?:pub(?:\(crate\))? )?(?:enum|struct) .*?^}\n', re.M | re.S)
USE = re.compile(r'^use ([\w:]+)::(?:(\w+)|\{([^}]*)\});$', re.M)


def crates():
    """The libraries and programs of this repository."""
    return re.findall(r'^(\w+):', (ROOT / 'crates.txt').read_text(), re.M)


class Stopped(Exception):
    """What was asked could not be done."""


class Repository:
    """Crates with their proofs."""

    def __init__(self, crates):
        self.folder = pathlib.Path(tempfile.mkdtemp(prefix='scratch.'))
        self.crates = self.folder / 'crates'
        for name in crates:
            self.copy(name)
        self.list = [l for l in (ROOT / 'crates.txt').read_text().splitlines() if l.partition(':')[0] in crates]
        (self.folder / 'crates.txt').write_text('\n'.join(self.list) + '\n')

    def copy(self, name):
        shutil.copytree(ROOT / 'crates' / name, self.crates / name, ignore=shutil.ignore_patterns('must-fail', 'out'))

    def write(self, crate, files):
        """The proofs of a crate: these texts by file name, and no others."""
        proofs = self.crates / crate / 'proofs'
        shutil.rmtree(proofs, ignore_errors=True)
        proofs.mkdir()
        for name, text in files.items():
            (proofs / (name + '.antt')).write_text(text)
        (proofs / 'Lib.antt').write_text(''.join('mod %s\n' % n for n in files))

    def rt(self, *words, crate=None):
        """The status of `rt`, at the top or in the folder of a crate, and what it says."""
        folder = self.crates / crate if crate else self.folder
        done = subprocess.run(['rt', *words], cwd=folder, stdout=subprocess.PIPE, stderr=subprocess.STDOUT)
        return done.returncode, done.stdout.decode(errors='replace')

    def remove(self):
        shutil.rmtree(self.folder)


def types_of(text):
    """The types of a file of code, and the types of others that they name."""
    types = TYPE.findall(text)
    named = set(re.findall(r'\b[A-Z]\w*', ' '.join(types)))
    uses = ((path, name.strip()) for path, one, some in USE.findall(text) for name in (one or some).split(','))
    return ['use %s::%s;\n' % use for use in uses if use[1] in named] + types


class Definitions(Repository):
    """The definitions and the types that they name, without functions and proofs, and an empty crate that sees them all."""

    def __init__(self, crate):
        super().__init__(DEFINITIONS)
        (self.crates / crate / 'src').mkdir(parents=True)
        (self.crates / crate / 'src' / 'lib.rt').write_text('// There is no code here.\n')
        self.list.append(crate + ': ' + ' '.join(DEFINITIONS))
        (self.folder / 'crates.txt').write_text('\n'.join(self.list) + '\n')

    def copy(self, name):
        shutil.copytree(ROOT / 'crates' / name / 'specs', self.crates / name / 'specs')
        (self.crates / name / 'src').mkdir()
        types = {f.stem: types_of(f.read_text()) for f in sorted((ROOT / 'crates' / name / 'src').glob('*.rt'))}
        modules = [module for module in types if types[module] and module != 'lib']
        types['lib'] += ['pub mod %s;\n' % module for module in modules]
        for module in ['lib'] + modules:
            (self.crates / name / 'src' / (module + '.rt')).write_text('// The types alone.\n' + '\n'.join(types[module]))
