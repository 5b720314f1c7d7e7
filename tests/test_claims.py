"""The script claims.py accepts a true file, and fails on each kind of untrue one."""
import pathlib
import tempfile
import unittest

import claims

CODE = '''mod inner;
pub use inner::{Counter, shown};

pub struct Shape {
    pub width: usize,
}

pub struct Reader<'a> {
    samples: &'a [u16],
}

pub trait Held {}

impl Held for Shape {}

// One more.
pub fn bump(x: u32) -> u32
    ensures { result ≡ bumped x }
{
    x + 1
}

fn own(x: u32) -> u32 {
    let more = |y: u32| -> u32
        requires { y < 10 }
    {
        y + 1
    };
    more(x % 10)
}
'''
INNER = '''pub struct Counter {
    at: u32,
}

pub struct Inside {
    at: u32,
}

impl Counter {
    pub fn step(self) -> Counter
        ensures { result ≡ self }
    {
        self
    }
}

pub fn shown(table: &mut [[u32; 2]; 3])
    ensures same { table.new ≡ table.old }
    ensures none {
        result ≡ tt
    }
{
}

pub fn kept_inside(x: u32) -> u32
    ghost { y : ℕ }
    requires low { x < 10 }
    requires high { 0 < x }
    ensures { result ≡ x }
{
    x
}
'''
METHOD = '''
impl%s {
    fn held(self) -> u32
        requires { self.at < 10 }
        ensures { result ≡ 10 }
    {
        10
    }
}
'''
TRAIT = '''
%strait Grown {
    fn grown(self) -> Self
        %s { result ≡ self };
}
'''
SPEC = '''-- One more.
unfoldable pub bumped : ℕ → ℕ
bumped x = x + 1

pub record Low {A : Type 0} (x : ℕ) : Type 0 where
  pub low : x < 10

module _ (n : ℕ) where
  pub bumped-above : n < bumped n
'''


GRAIN = '''use one::Counter;

#[unsafe(no_mangle)]
pub extern "C" fn grain_bump(x: u32) -> u32
    ensures { result ≡ bumped x }
{
    one::bump(x)
}
'''
PUBLIC = '`one/src/lib.rt:bump` `one/src/inner.rt:step` `one/src/inner.rt:shown` `grain/src/lib.rt:grain_bump`'
TABLES = '''
## Two wrong programs for each public call

| call | a wrong program | another |
|---|---|---|
| `one/src/lib.rt:bump` | stays: `one/must-fail/code_stays.edit` | twice: `one/must-fail/promise_twice.edit` |

## Functions with a `requires`

| crate | functions |
|---|---|
| `one` | `kept_inside` |

## Last
'''
FILES = {
    'crates/one/src/lib.rt': CODE,
    'crates/one/src/inner.rt': INNER,
    'crates/one/specs/One.antt': SPEC,
    'crates/one/proofs/own/Answers.antt': 'returns c = search\n',
    'crates/one/must-fail/code_stays.edit': 'file: src/lib.rt\nold: x + 1\nnew: x + 0\n',
    'crates/one/must-fail/code_more.edit': 'file: src/lib.rt\nold: y < 10\nnew: y < 11\n',
    'crates/one/must-fail/promise_twice.edit': 'file: src/lib.rt\nold: bumped x\nnew: bumped (bumped x)\n',
    'crates/one/must-fail/promise_named.edit': 'file: src/inner.rt\nold: table.new ≡ table.old\nnew: table.old ≡ table.old\n',
    'crates/one/must-fail/promise_lines.edit': 'file: src/inner.rt\nold:         result ≡ tt\nnew:         tt ≡ tt\n',
    'crates/one/must-fail/definition_by_two.edit': 'file: specs/One.antt\nold: x + 1\nnew: x + 2\n',
    'crates/one/must-fail/definition_by_three.edit': 'file: specs/One.antt\nold: x + 1\nnew: x + 2\nold: x + 2\nnew: x + 3\n',
    'crates/grain/src/lib.rt': GRAIN,
}


class Claims(unittest.TestCase):
    def found(self, text, tables=TABLES, **changed):
        with tempfile.TemporaryDirectory() as folder:
            root = pathlib.Path(folder)
            for path, content in {**FILES, 'docs/CLAIMS.md': text + tables, **changed}.items():
                (root / path).parent.mkdir(parents=True, exist_ok=True)
                (root / path).write_text(content)
            return claims.problems(root)[0]

    def changed(self, path, old, new):
        """A file with one text replaced, which it has."""
        self.assertIn(old, FILES[path])
        return {path: FILES[path].replace(old, new)}

    def test_true(self):
        text = PUBLIC + ' `one/src/lib.rt:Shape` `one/src/lib.rt:own` `one/specs/One.antt` `docs/CLAIMS.md`'
        text += ' `one/specs/One.antt:bumped` `one/specs/One.antt:Low` `one/specs/One.antt:low` `one/specs/One.antt:bumped-above`'
        self.assertEqual(self.found(text), [])

    def test_missing_name(self):
        self.assertEqual(len(self.found(PUBLIC + ' `one/specs/One.antt:bumped-below`')), 1)

    def test_name_only_used(self):
        self.assertEqual(len(self.found(PUBLIC + ' `one/src/lib.rt:bumped`')), 1)

    def test_missing_file(self):
        self.assertEqual(len(self.found(PUBLIC + ' `one/specs/Two.antt`')), 1)
        self.assertEqual(len(self.found(PUBLIC + ' `docs/NOTHING.md`')), 1)

    def test_public_function_left_out(self):
        for name in ('one/src/inner.rt:step', 'one/src/inner.rt:shown', 'grain/src/lib.rt:grain_bump'):
            self.assertEqual(len(self.found(PUBLIC.replace(f'`{name}`', '`one/specs/One.antt:bumped`'))), 1)

    def test_public_function_left_out_however_it_is_named(self):
        text = PUBLIC.replace('`one/src/inner.rt:shown`', '')
        both = 'pub use inner::{Counter, shown};'
        for line in ('pub use inner::Counter;\npub use inner::shown;', 'pub use inner::{\n    Counter,\n    shown,\n};', 'pub use {inner::Counter, inner::{shown as seen}};'):
            code = self.changed('crates/one/src/lib.rt', both, line)
            self.assertEqual((self.found(PUBLIC, **code), len(self.found(text, **code))), ([], 1), line)
        # Not one that is named otherwise, or not at all.
        for line in ('pub use inner::Counter;', 'pub use inner::{Counter, counter as shown};', 'pub use inner::Counter;\nuse inner::shown;'):
            self.assertEqual(self.found(text, **self.changed('crates/one/src/lib.rt', both, line)), [], line)
        # All of a module is: kept_inside too.
        for line in ('pub use inner::*;', 'pub mod inner;'):
            self.assertEqual(len(self.found(PUBLIC, **self.changed('crates/one/src/lib.rt', both, line))), 1, line)
        # An export, in whatever module, and with its attribute on its line.
        code = {'crates/grain/src/lib.rt': 'mod bumps;\n', 'crates/grain/src/bumps.rt': GRAIN}
        self.assertEqual(len(self.found(PUBLIC.replace('`grain/src/lib.rt:grain_bump`', ''), **code)), 1)
        code = self.changed('crates/grain/src/lib.rt', '#[unsafe(no_mangle)]\n', '#[unsafe(no_mangle)] ')
        self.assertEqual(len(self.found(PUBLIC.replace('`grain/src/lib.rt:grain_bump`', ''), **code)), 1)

    def test_nothing_cited(self):
        self.assertIn('docs/CLAIMS.md: no citation found', self.found('No claims.', tables=''))

    def test_public_function_without_a_contract(self):
        self.assertEqual(len(self.found(PUBLIC, **self.changed('crates/grain/src/lib.rt', '    ensures { result ≡ bumped x }\n', ''))), 1)
        # A comment is none.
        code = self.changed('crates/grain/src/lib.rt', '    ensures {', '    // ensures {')
        self.assertEqual(len(self.found(PUBLIC, **code)), 1)

    def test_method_of_a_trait(self):
        for path, words, clause, wrong in (('lib', 'pub ', 'ensures', 1), ('lib', 'pub ', 'requires', 4), ('lib', '', 'ensures', 0), ('inner', 'pub ', 'ensures', 0)):
            path = f'crates/one/src/{path}.rt'
            self.assertEqual(len(self.found(PUBLIC, **{path: FILES[path] + TRAIT % (words, clause)})), wrong, (path, words, clause))
        self.assertEqual(self.found(PUBLIC + ' `one/src/lib.rt:grown`', **{'crates/one/src/lib.rt': CODE + TRAIT % ('pub ', 'ensures')}), [])
        # What the next one states is not said of it.
        other = TRAIT.replace('Self\n', 'Self;\n    fn other(self) -> Self\n') % ('pub ', 'ensures')
        cited = PUBLIC + ' `one/src/lib.rt:grown` `one/src/lib.rt:other`'
        self.assertEqual(len(self.found(cited, **{'crates/one/src/lib.rt': CODE + other})), 1)

    def test_precondition_left_out(self):
        self.assertEqual(len(self.found(PUBLIC, TABLES.replace('`kept_inside`', ''))), 1)

    def test_precondition_of_another_form(self):
        for clause in ('requires { x < 10 }', 'requires* { ⌜ x < 10 ⌝ }', 'requires* low { ⌜ x < 10 ⌝ }', 'requires {\n        x < 10\n    }'):
            for head in ('fn', 'pub(crate) fn', 'const fn', 'unsafe fn', '#[inline] fn'):
                code = f'{CODE}\n{head} other(x: u32) -> u32\n    {clause}\n    ensures {{ result ≡ x }}\n{{\n    x\n}}\n'
                self.assertEqual(len(self.found(PUBLIC, **{'crates/one/src/lib.rt': code})), 1, (clause, head))

    def test_precondition_that_is_none(self):
        self.assertEqual(len(self.found(PUBLIC, TABLES.replace('`kept_inside`', '`kept_inside`, `own`'))), 1)

    def test_call_with_a_precondition(self):
        listed = TABLES.replace('`kept_inside`', '`kept_inside`, `bump`')
        code = self.changed('crates/one/src/lib.rt', '    ensures', '    requires { x < 10 }\n    ensures')
        self.assertEqual(len(self.found(PUBLIC, listed, **code)), 1)

    def test_function_of_grain_with_a_precondition(self):
        listed = TABLES.replace('| `kept_inside` |', '| `kept_inside` |\n| `grain` | `grain_bump` |')
        code = self.changed('crates/grain/src/lib.rt', '    ensures', '    requires { x < 10 }\n    ensures')
        self.assertEqual(len(self.found(PUBLIC, listed, **code)), 1)

    def test_method_with_a_precondition(self):
        listed = TABLES.replace('`kept_inside`', '`kept_inside`, `held`')
        heads = ((' Counter', 1), (' Shape', 1), ("<'a> Reader<'a>", 1), (' Held for Shape', 1), ('<T: Into<u8>> Held for one::Shape', 1), (' Held for Inside', 0), (' Inside', 0))
        for head, wrong in heads:
            for path, text in (('crates/one/src/inner.rt', INNER), ('crates/one/src/more.rt', '')):
                self.assertEqual(len(self.found(PUBLIC, listed, **{path: text + METHOD % head})), wrong, (head, path))

    def test_call_with_one_wrong_program(self):
        self.assertEqual(len(self.found(PUBLIC, TABLES.replace('promise_twice.edit', 'code_stays.edit'))), 1)

    def test_call_in_a_second_table(self):
        second = TABLES.replace('\n## Functions', '\n| call | a wrong promise | another |\n|---|---|---|\n| `one/src/inner.rt:shown` | `one/must-fail/code_stays.edit` | |\n\n## Functions')
        self.assertEqual(len(self.found(PUBLIC, second)), 1)

    def test_edit_named_for_something_else(self):
        edits = (('code_by_two', 'specs/One.antt\nold: x + 1'), ('definition_stays', 'src/lib.rt\nold: x + 1'), ('code_twice', 'src/lib.rt\nold: bumped x'), ('stays', 'src/lib.rt\nold: x + 1'),
                 ('promise_more', 'src/lib.rt\nold: y < 10'), ('code_named', 'src/inner.rt\nold: table.new'), ('code_lines', 'src/inner.rt\nold:         result ≡ tt'), ('promise_ghost', 'src/inner.rt\nold: y : ℕ'),
                 ('code_proof', 'proofs/own/Answers.antt\nold: search'), ('proof_own', 'proofs/own/Answers.antt\nold: search'), ('code_two', 'src/lib.rt\nold: x + 1\nnew: x\nold: bumped x'))
        for name, text in edits:
            wrong = int(name != 'proof_own')
            self.assertEqual(len(self.found(PUBLIC, **{f'crates/one/must-fail/{name}.edit': f'file: {text}\nnew: 0\n'})), wrong, name)

    def test_edit_of_a_text_that_does_not_stand_once(self):
        for text in ('src/lib.rt\nold: x + 5', 'src/lib.rt\nold: x: u32', 'src/gone.rt\nold: x + 1', 'src/lib.rt\nold: x + 1\nnew: x + 2\nold: x + 1'):
            self.assertEqual(len(self.found(PUBLIC, **{'crates/one/must-fail/code_gone.edit': f'file: {text}\nnew: x\n'})), 1, text)

    def test_edit_of_nothing(self):
        for text in ('', 'old: x + 1\nnew: x\n', 'file: src/lib.rt\nold: x + 1\n'):
            self.assertEqual(len(self.found(PUBLIC, **{'crates/one/must-fail/code_nothing.edit': text})), 1, text)

    def test_call_without_a_row(self):
        self.assertEqual(len(self.found(PUBLIC, TABLES.replace('`one/src/lib.rt:bump` |', '`one/src/inner.rt:shown` |'))), 1)

    def test_call_without_a_row_however_it_is_made(self):
        for line, call in (('', 'one::inner::shown(x)'), ('', 'Counter::step(x)'), ('use one::shown;\n', 'shown(x)'), ('use one::{\n    bump,\n    inner::{shown},\n};\n', 'shown(x)')):
            code = {'crates/grain/src/lib.rt': line + GRAIN.replace('one::bump(x)', call)}
            self.assertEqual(len(self.found(PUBLIC, **code)), 1, call)
        # Neither a variant nor a method's call is one.
        for call in ('one::bump(Counter::Full(x))', 'one::bump(x.shown())'):
            code = {'crates/grain/src/lib.rt': 'use one::shown;\n' + GRAIN.replace('one::bump(x)', call)}
            self.assertEqual(self.found(PUBLIC, **code), [], call)


if __name__ == '__main__':
    unittest.main()
