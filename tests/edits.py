"""Edits that plant an error: a heading `# what is wrong`, then `file:`, and `old:` and `new:` for each text that is changed in it."""
import pathlib
from scratch import ROOT, Stopped


class Misfit(Exception):
    """An edit's text is not in its file, or not once."""


def planted(edit):
    """The files of an edit, each with its pairs of an old and a new text."""
    files = {}
    for line in edit.splitlines()[1:]:
        word, _, text = line.partition(': ')
        if word == 'file':
            pairs = files.setdefault(text, [])
        elif word == 'old':
            old = text
        elif word == 'new':
            pairs.append((old, text))
        else:
            raise Misfit('no line of an edit: ' + line)
    return files


def changed(text, pairs, name):
    """A text with these pairs changed."""
    for old, new in pairs:
        if text.count(old) != 1:
            raise Misfit(f'{name}: {text.count(old)} times there: {old}')
        text = text.replace(old, new)
    return text


def says(edit):
    return edit.splitlines()[0].removeprefix('# ')


def of_definitions():
    """The edits that plant an error in a definition, by name: where their paths begin, and their files."""
    own = {f.stem: ('crates/history/', f) for f in (ROOT / 'crates' / 'history' / 'must-fail').glob('*.edit')}
    return dict(own, **{f.stem: ('', f) for f in (ROOT / 'tests' / 'planted.d').glob('*.edit')})


def asked_for(names):
    """The edits of definitions by name, or all: (name, where its paths begin, file). A name that ends in `.edit` is a file's own."""
    known = of_definitions()
    for name in names or sorted(known):
        if name.endswith('.edit') and pathlib.Path(name).is_file():
            yield pathlib.Path(name).stem, '', pathlib.Path(name)
        elif name in known:
            yield name, *known[name]
        else:
            raise Stopped('no edit ' + name)


def plant(folder, start, file):
    """Applies an edit in a folder of definitions without proofs; what it says it plants."""
    edit = file.read_text()
    for name, pairs in planted(edit).items():
        path = folder / (start + name)
        if path.parent.name != 'proofs':
            path.write_text(changed(path.read_text(), pairs, file.name))
    return says(edit)
