"""Tries tools/rename on a repository of two crates."""
import os
import shutil
import tempfile

from tries import TOOLS, run

FILES = {
    'crates.txt': '# == Ground: all\nlow:\nhigh: low\nother:\n',
    'crates/low/src/lib.rt': '//! `told` tells, and was told so.\nmod told;\npub fn told(n: u32) -> u32 { told::said(n, \'a\', "told // told") } // told or `told`\nfn told_apart<\'told>() {} // "told"\n',
    'crates/low/src/told.rt': 'pub(crate) fn said(n: u32) -> u32 { n }\n',
    'crates/low/specs/Lib.antt': "-- what `IsTold` says: told\nabbrev pub IsTold : ℕ → Type 0\nIsTold n = n ≡ is-told ∙ in_ok-told.ensures ∙ told' ∙ sold -- IsTold\n",
    'crates/low/proofs/front/told/Answers.antt': 'use Rattle.low.proofs.front.told.Goals as goal\npub told-requires : goal.told-requires\n',
    'crates/low/must-fail/told.edit': '# told and `told`\nfile: src/told.rt\nold: told::said(n)\nnew: told::said(n + 1)\n',
    'crates/high/src/lib.rt': 'use low::told;\nghost use Rattle.low.specs.Lib.{IsTold};\n',
    'crates/other/src/lib.rt': 'fn told() {}\nfn sold() {}\n',
    'bench/plants/high/one.edit': '# told\n# refused: told\nfile: src/lib.rt\nold: low::told\nnew: low::told2\n',
    'docs/PAGE.md': 'What was told by `told`:\n\n```\ntold\n```\n',
    'README.md': '', 'tools/notions.txt': '# told\nlow/IsTold: told\n', 'tools/style.txt': '# told\nhidden low/src/told.rt said\n',
}
WANTED = {
    **FILES,
    'crates/low/src/lib.rt': '//! `number_of` tells, and was told so.\nmod number_of;\npub fn number_of(n: u32) -> u32 { number_of::said(n, \'a\', "told // told") } // told or `number_of`\nfn told_apart<\'told>() {} // "told"\n',
    'crates/low/src/number_of.rt': FILES['crates/low/src/told.rt'],
    'crates/low/specs/Lib.antt': "-- what `IsNumber` says: told\nabbrev pub IsNumber : ℕ → Type 0\nIsNumber n = n ≡ is-number_of ∙ in_ok-number_of.ensures ∙ told' ∙ sold -- IsTold\n",
    'crates/low/proofs/front/number_of/Answers.antt': 'use Rattle.low.proofs.front.number_of.Goals as goal\npub number_of-requires : goal.number_of-requires\n',
    'crates/low/must-fail/told.edit': '# told and `number_of`\nfile: src/number_of.rt\nold: number_of::said(n)\nnew: number_of::said(n + 1)\n',
    'crates/high/src/lib.rt': 'use low::number_of;\nghost use Rattle.low.specs.Lib.{IsNumber};\n',
    'bench/plants/high/one.edit': '# told\n# refused: number_of\nfile: src/lib.rt\nold: low::number_of\nnew: low::told2\n',
    'docs/PAGE.md': 'What was told by `number_of`:\n\n```\nnumber_of\n```\n',
    'tools/notions.txt': '# told\nlow/IsNumber: number_of\n', 'tools/style.txt': '# told\nhidden low/src/number_of.rt said\n',
}
for gone in ('crates/low/src/told.rt', 'crates/low/proofs/front/told/Answers.antt'):
    del WANTED[gone]

# A module of definitions, one definition of which has the name of another crate's.
MODULE = {
    'crates/low/specs/Lib.antt': 'pub mod Facts\n',
    'crates/low/specs/Facts.antt': '-- `IsFact` is a fact\npub record IsFact : Type 0 where\n',
    'crates/high/src/lib.rt': '//! `low/Facts` and `IsFact`.\nghost use Rattle.low.specs.Facts.{IsFact, other};\n',
    'crates/other/src/lib.rt': 'struct IsFact;\n',
    'docs/PAGE.md': '`low/Facts` has facts.\n',
}
OTHER = {
    'crates/low/specs/Lib.antt': 'pub mod Claims\n',
    'crates/low/specs/Claims.antt': '-- `IsClaim` is a fact\npub record IsClaim : Type 0 where\n',
    'crates/high/src/lib.rt': '//! `low/Claims` and `IsClaim`.\nghost use Rattle.low.specs.Claims.{IsClaim, other};\n',
    'crates/other/src/lib.rt': 'struct IsFact;\n',
    'docs/PAGE.md': '`low/Claims` has facts.\n',
}


class Copy:
    """a repository in a folder of its own, as it begins"""

    def __init__(self, path):
        self.path = path
        for name, text in FILES.items():
            self.file(name, text)
        for tool in ('rename', 'sources.py'):
            shutil.copy(os.path.join(TOOLS, tool), os.path.join(path, 'tools', tool))

    def file(self, name, text):
        path = os.path.join(self.path, name)
        os.makedirs(os.path.dirname(path), exist_ok=True)
        with open(path, 'w', encoding='utf-8') as file:
            file.write(text)
        return path

    def rename(self, table, *words):
        return run(os.path.join(self.path, 'tools/rename'), self.file('table', table), *words, cwd=self.path)[:2]

    def texts(self):
        found = {}
        for folder, _, names in os.walk(self.path):
            for name in names:
                path = os.path.relpath(os.path.join(folder, name), self.path)
                if path not in ('table', 'tools/rename', 'tools/sources.py'):
                    with open(os.path.join(self.path, path), encoding='utf-8') as file:
                        found[path] = file.read()
        return found


def all_of(tries):
    with tempfile.TemporaryDirectory() as path:
        copy = Copy(os.path.realpath(path))
        for table, wanted in (
                ('told said low\n', 'said stands already in crates/low/must-fail/told.edit, crates/low/src/lib.rt, crates/low/src/told.rt\n'), ('told number_of\nIsTold number_of\n', 'line 2: number_of is a new name twice\n'),
                ('gone went\n', 'gone stands nowhere in the crates\n'), ('told 1st\n', 'line 1: 1st is no name\n'), ('told\n', 'line 1: it is OLD NEW, or OLD NEW CRATE\n'),
                ('told number_of none\n', 'line 1: none is no crate\n'), ('told told\n', 'line 1: told stays as it is\n'), ('told sold\n', 'sold stands already in crates/low/specs/Lib.antt, crates/other/src/lib.rt\n')):
            tries.same('a table that is refused: ' + table, copy.rename(table), (1, wanted))
        tries.same('nothing written', copy.texts(), FILES)
        table = '# the word and the claim\ntold number_of low\nIsTold IsNumber\n'
        moves = 'crates/low/proofs/front/told/Answers.antt -> crates/low/proofs/front/number_of/Answers.antt\ncrates/low/src/told.rt -> crates/low/src/number_of.rt\n'
        last = '26 words in 9 files, 2 files with other names'
        tries.same('a table that is tried', copy.rename(table, '--try'), (0, moves + last + ': not written\n'))
        tries.same('nothing written for it', copy.texts(), FILES)
        tries.same('a table', copy.rename(table), (0, moves + last + '\n'))
        found = copy.texts()
        for name in sorted(found.keys() | WANTED.keys()):
            tries.same('renamed: ' + name, found.get(name), WANTED.get(name))
        tries.true('no folder without a file', not os.path.exists(os.path.join(path, 'crates/low/proofs/front/told')))
        # Back again, and names that change places.
        tries.same('back', copy.rename('number_of told low\nIsNumber IsTold\n')[0], 0)
        tries.same('as it was', copy.texts(), FILES)
        tries.same('names that change places', copy.rename('told said low\nsaid told low\n')[0], 0)
        tries.holds('both', copy.texts()['crates/low/src/lib.rt'], 'mod said;\npub fn said(n: u32) -> u32 { said::told(n')
    with tempfile.TemporaryDirectory() as path:
        copy = Copy(os.path.realpath(path))
        for name, text in MODULE.items():
            copy.file(name, text)
        for table, wanted in (
                ('low/None Claims\n', 'line 1: low has no module None\n'), ('none/Facts Claims\n', 'line 1: none is no crate\n'), ('low/Facts Lib low\n', 'line 1: it is CRATE/MODULE NEW, or CRATE/MODULE.NAME NEW\n'),
                ('low/Facts.IsNone IsClaim\n', 'low/Facts has no IsNone\n'), ('IsFact IsClaim =none\n', 'line 1: none is no crate\n')):
            tries.same('a table of modules that is refused: ' + table, copy.rename(table), (1, wanted))
        tries.same('a table of modules', copy.rename('low/Facts Claims\nlow/Facts.IsFact IsClaim\n')[0], 0)
        found = copy.texts()
        for name, text in OTHER.items():
            tries.same('a module renamed: ' + name, found.get(name), text)
        tries.true('the module is moved', 'crates/low/specs/Facts.antt' not in found)
        tries.same('a table of one crate', copy.rename('IsFact IsClaim =other\n')[0], 0)
        tries.same('in one crate', copy.texts()['crates/other/src/lib.rt'], 'struct IsClaim;\n')
