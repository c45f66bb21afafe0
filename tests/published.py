"""The public functions of the libraries: each `pub fn` that is seen outside its crate, every module on the way to it being a `pub mod`.

A static library NAME_c has none of its own: it exports those of the library NAME to C.
"""
import pathlib, re

CRATES = pathlib.Path(__file__).resolve().parent.parent / 'crates'
STATIC = re.findall(r'^(\w+) staticlib:', (CRATES.parent / 'crates.txt').read_text(), re.M)
FUNCTION = re.compile(r'^impl(?:<[^>]*>)? (\w+)|^(\s*)pub fn (\w+)', re.M)
MODULE = re.compile(r'^\s*pub mod (\w+);', re.M)
PROMISE = re.compile(r'^pub fn (\w+)(\(.*?)^\{$', re.M | re.S)
EXPORT = re.compile(r'^#\[unsafe\(no_mangle\)\]\npub extern "C" fn (\w+)(\(.*?)^\{\n(.*?)^\}$', re.M | re.S)


def functions_of(file, folder, path):
    """The path, a tuple, of each `pub fn` of the file, of a type's after the type, and of the public modules below it."""
    text, owner = file.read_text(), ()
    for owned_by, indent, name in FUNCTION.findall(text):
        if owned_by:
            owner = (owned_by,)
        else:
            yield path + (owner if indent else ()) + (name,)
    for name in MODULE.findall(text):
        yield from functions_of(folder / f'{name}.rt', folder / name, path + (name,))


def functions():
    libraries = [lib for lib in sorted(CRATES.glob('*/src/lib.rt')) if lib.parent.parent.name not in STATIC]
    return [f for lib in libraries for f in functions_of(lib, lib.parent, (lib.parent.parent.name,))]


def plain(text):
    """A text as if it stood in one line."""
    return ' '.join(text.split()).replace('( ', '(').replace(', )', ')').replace(' )', ')')


def misexported():
    """The exports that are not the library's: each has the name, the signature and the clauses of one of its public functions, word for word, and calls it."""
    for crate in STATIC:
        library = crate.removesuffix('_c')
        promises = dict(PROMISE.findall((CRATES / library / 'src' / 'lib.rt').read_text()))
        exports = {name: rest for name, *rest in EXPORT.findall((CRATES / crate / 'src' / 'lib.rt').read_text())}
        for name in sorted(promises.keys() | exports.keys()):
            promise, body = map(plain, exports.get(name, ('', '')))
            lent = ', '.join(re.findall(r'(\w+): ', promise.partition(' ensures')[0]))
            if promise != plain(promises.get(name, '')) or body != f'{library}::{name}({lent})':
                yield f'{crate}::{name}'
