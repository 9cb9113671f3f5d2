#!/usr/bin/env python3
"""Holds what the check says of the must-fail edits against what the edits are for. `rt must-fail` asks that each edit is refused; one
edit may hold a wrong line for each of several functions, or several wrong rules with a name each. So here each of these functions must
have been refused by itself, each wrong rule at facts that no other rule of its edit has, and under each edit or wrong rule that
docs/PROMISES.md names for a statement that statement's proof must have failed, by itself or because a law that it goes by failed;
no edit may be one that is not well formed. rt tells of a refused edit only the first line, so each is tried here once more, on a copy
of its crate and of those below, over what `rt check` keeps of them, and what the check says there is kept as
target/must-fail/CRATE/EDIT/.log until one of the files that it stands on changes. With names of crates it tries and judges their edits
alone. With --facts it tries none, and only prints, of each edit that was tried, the facts that failed of themselves."""
import hashlib
import os
import pathlib
import re
import shutil
import signal
import subprocess
import sys
import tempfile
from concurrent.futures import ThreadPoolExecutor

ROOT = pathlib.Path(__file__).resolve().parent.parent
LOGS = ROOT / 'target' / 'must-fail'
PARTS = ('src', 'specs', 'proofs')
PROOFS = {'Shown': 'all_shown', 'Computed': 'all_computed', 'Edges': 'all_edges', 'Conversation': 'conversed', 'Bounds': 'all_bounds', 'Missing': 'all_missing_lem',
          'WordsComputed': 'all_words', 'Packets': 'all_packets', 'Acknowledgements': 'all_acknowledgements', 'AsNoReply': 'as_no_reply_lem'}
# crates that hand on what others promise, or promise no more than to end: docs/PROMISES.md, 'Looser promises'
BESIDE = ('pod', 'line_loop', 'aircraft_loop', 'vectors', 'repeats')
# the crates that have statements, each with the record that holds all of them
WHOLE = {'rules': 'Whole', 'examples': 'Examples', 'port_examples': 'PortExamples', 'word_examples': 'WordExamples', 'airframe': 'Statements',
         'both_ends': 'Ends', 'aircraft_lines': 'Statements', 'aircraft_answers': 'Statements', 'tolmezha': 'Statements'}
# a file of proofs that only the copies have: a value for each statement, made of its proof. Of the facts that fail for want of another the
# check names three, so whether a statement's proof failed is read off its value here
VALUES = 'EachStatement'
# a wrong rule with a name, and the facts that fail of it and of no other rule in its edit
RULE = re.compile(r'^# (\w+): .*\n# refused at: (.*)$', re.M)
HEAD = re.compile(r'^\s*(?:pub )?(?:extern "C" )?fn (\w+)', re.M)
# an error that says no more than that a proof names what is not there
NAMES = re.compile(r'has no field|is not in scope|has no `|was not admitted')
failures = []


def fail(what):
    if what not in failures:
        failures.append(what)
        print('edits:', what)


def plain(name):
    """A fact's name, in whichever way its words are joined."""
    return name.replace('-', '_')


def edits_of(crate):
    return sorted((ROOT / 'crates' / crate / 'must-fail').glob('*.edit'))


def uses():
    """Each crate with its line of crates.txt and the crates that it names."""
    found = {}
    for line in (ROOT / 'crates.txt').read_text().split('\n'):
        head, colon, named = line.partition('#')[0].partition(':')
        if colon:
            found[head.split()[0]] = line, named.split()
    return found


USES = uses()


def below(crate):
    """The crates of this repository that a crate stands on, each after those that it stands on itself."""
    found = []
    for name in USES[crate][1]:
        found += [n for n in [*below(name), name] if n not in found] if name in USES else []
    return found


# ---- each edit is tried


def pairs(edit):
    """The file, the old and the new text of each wrong line."""
    file = old = None
    for line in edit.read_text().split('\n'):
        if line.startswith('file: '):
            file = line[6:].strip()
        elif line.startswith('old: '):
            old = line[5:]
        elif line.startswith('new:'):
            yield file, old, line[4:].removeprefix(' ')


def edited(edit):
    """The files that an edit changes, as it leaves them; none where one of its texts does not stand once in its file."""
    crate, texts = edit.parent.parent, {}
    for file, old, new in pairs(edit):
        text = texts.get(file) or (crate / file).read_text()
        if text.count(old) != 1:
            fail(f'{crate.name}/{edit.stem}: its text stands in {file} {text.count(old)} times, and not once: {old.strip()}')
            return {}
        texts[file] = text.replace(old, new)
    return texts


def declared(crate, name):
    """The file of proofs that has a fact, and the fact's name there."""
    found = []
    for file in sorted((ROOT / 'crates' / crate / 'proofs').glob('*.antt')):
        found += [(file.stem, n) for n in re.findall(r'^pub ([\w-]+) :', file.read_text(), re.M) if plain(n) == name]
    if len(found) != 1:
        fail(f'{crate}: {len(found)} facts of proofs/ are called {name}, and not one')
    return found[0] if len(found) == 1 else (None, name)


def values(crate):
    """The file VALUES of a crate: each statement of its record, by the imports of the record's own file."""
    path = f'crates/{crate}/specs/{WHOLE[crate]}.antt'
    used = re.findall(r'^use (\S+)\.\{(.*)\}$', (ROOT / path).read_text(), re.M)
    lines, made = [f'use {module}.{{{names}}}' for module, names in used], []
    brought = ', '.join(names for _, names in used).split(', ')
    own = [statement for statement in fields(path) if statement not in brought]
    lines += [f'use Rattle.{crate}.specs.{WHOLE[crate]}.{{{", ".join(own)}}}'] if own else []
    for statement in fields(path):
        module, fact = declared(crate, proof_of(statement))
        if module:
            lines.append(f'use Rattle.{crate}.proofs.{module}.{{{fact}}}')
            made.append(f'\nvalue_{statement} : {statement}\nvalue_{statement} = {fact}')
    return '\n'.join(lines + made) + '\n'


def linked(one, other):
    """Copies a file, by a link where rt replaces such a file and does not change it."""
    if one.endswith('.oantt') or '/out/rlib/' in one:
        try:
            os.link(one, other)
            return other
        except OSError:
            pass
    return shutil.copy2(one, other)


def check(top, crate):
    """What the check says of a crate, here or in a copy, and the status with which it ends."""
    ran = subprocess.run(['rt', 'check', '--jobs', '1'], cwd=top / 'crates' / crate, stdin=subprocess.DEVNULL, stdout=subprocess.PIPE, stderr=subprocess.STDOUT,
                         errors='replace', check=False)
    return ran.stdout, ran.returncode


class Trial:
    """A crate's edits: those with no log of the present files, and the copy that they are tried over, proved as it stands."""

    def __init__(self, crate, rooms):
        self.crate, self.room = crate, rooms / crate
        self.stands = hashlib.sha256(version().encode())
        for name in [*below(crate), crate]:
            self.stands.update(USES[name][0].encode())
            for part in PARTS:
                for file in sorted((ROOT / 'crates' / name / part).rglob('*')):
                    if file.is_file():
                        self.stands.update(repr((name, str(file.relative_to(ROOT)), file.read_bytes())).encode())
        self.values = values(crate) if crate in WHOLE else ''
        self.stands.update(self.values.encode())
        self.wanted = [edit for edit in edits_of(crate) if not self.is_told(edit)]

    def place(self, edit):
        return LOGS / self.crate / edit.stem

    def sum(self, edit):
        own = self.stands.copy()
        own.update(edit.read_bytes())
        return own.hexdigest()

    def is_told(self, edit):
        log, sum = self.place(edit) / '.log', self.place(edit) / '.sum'
        if log.exists() and sum.exists() and sum.read_text() == self.sum(edit):
            return True
        log.unlink(missing_ok=True)
        return False

    def begin(self, lower):
        """Makes the copy, once those below have theirs, and says whether its crate is proved there."""
        if not all(one.result() for one in lower):
            fail(f'{self.crate} stands on a crate that is not proved, so its edits were not tried')
            return False
        if not self.is_proved(ROOT):
            return False
        for name in [*below(self.crate), self.crate]:
            for part in PARTS:
                if (ROOT / 'crates' / name / part).is_dir():
                    shutil.copytree(ROOT / 'crates' / name / part, self.room / 'crates' / name / part)
        (self.room / 'crates.txt').write_text(''.join(USES[n][0] + '\n' for n in [*below(self.crate), self.crate]))
        if self.values:
            proofs = self.room / 'crates' / self.crate / 'proofs'
            (proofs / f'{VALUES}.antt').write_text(self.values)
            with open(proofs / 'Lib.antt', 'a', encoding='utf-8') as lib:
                lib.write(f'\nmod {VALUES}\n')
        return self.is_proved(self.room)

    def is_proved(self, top):
        said, status = check(top, self.crate)
        if status:
            fail(f'{self.crate} is not proved as it stands, so its edits were not tried: {first_of(said)}')
        return not status

    def attempt(self, edit, begun):
        """Tries an edit on a copy of the copy, and keeps what the check says of it."""
        texts = edited(edit)
        if not texts or not begun.result():
            return
        room = self.room.with_name(f'{self.crate}.{edit.stem}')
        shutil.copytree(self.room, room, copy_function=linked)
        for file, text in texts.items():
            (room / 'crates' / self.crate / file).write_text(text)
        said, status = check(room, self.crate)
        shutil.rmtree(room)
        if status != 1:
            fail(f'{self.crate}/{edit.stem}: {"it is still proved" if not status else f"its check ended with status {status}"}: {first_of(said)}')
            return
        self.place(edit).mkdir(parents=True, exist_ok=True)
        (self.place(edit) / '.log').write_text(said)
        (self.place(edit) / '.sum').write_text(self.sum(edit))


def version():
    return subprocess.run(['rt', 'version'], stdout=subprocess.PIPE, text=True, check=True).stdout


def first_of(said):
    lines = said.rstrip('\n').split('\n')
    return next((line for line in lines if ': error' in line), lines[-1])[:200]


def attempt_all(crates):
    """Tries the edits that have no log of the present files, as many at a time as there are processors, the lowest crates first."""
    with tempfile.TemporaryDirectory(prefix='edits-') as rooms, ThreadPoolExecutor(len(os.sched_getaffinity(0))) as pool:

        def stop(*_):
            shutil.rmtree(rooms, ignore_errors=True)
            os._exit(1)

        signal.signal(signal.SIGTERM, stop)
        trials, begun = {crate: Trial(crate, pathlib.Path(rooms)) for crate in crates}, {}
        for crate in [name for top in crates for name in [*below(top), top]]:
            if crate in trials and crate not in begun and trials[crate].wanted:
                begun[crate] = pool.submit(trials[crate].begin, [begun[name] for name in below(crate) if name in begun])
        tries = [pool.submit(trials[crate].attempt, edit, ready) for crate, ready in begun.items() for edit in trials[crate].wanted]
        for one in [*begun.values(), *tries]:
            one.result()


# ---- what was said of them


def functions_at(crate, file, old):
    """The function that a line stands in; where the line is a constant's, the functions that name the constant."""
    source = ROOT / 'crates' / crate / 'src'
    constant = re.match(r'\s*(?:pub )?const (\w+)', old)
    if constant:
        texts = [HEAD.split(re.sub('//.*', '', path.read_text()))[1:] for path in sorted(source.rglob('*.rt'))]
        return [name for text in texts for name, body in zip(text[::2], text[1::2]) if re.search(rf'\b{constant.group(1)}\b', body)]
    text = (ROOT / 'crates' / crate / file).read_text()
    if old not in text:
        return []
    return HEAD.findall(text, 0, text.index(old) + len(old))[-1:]


def log_of(crate, label):
    path = LOGS / crate / label / '.log'
    if not path.exists():
        fail(f'{crate}/{label} has no log: it was not tried')
        return ''
    return path.read_text()


def refused(log, name):
    """Whether the function was refused by itself: not for one that it calls, nor because its contract can't be read, nor only because
    its proof names what the edit took away."""
    for path in re.findall(rf'^fn \w+::(\S*\b{name}): (?:not proved$|no proof: expected )', log, re.M):
        file = rf'proofs/{path.replace("::", "/")}/\w+\.antt'
        said = re.findall(rf'^\./{file}:\d+:\d+: error: `[^`]*`: (.*)', log, re.M)
        if not said or not all(NAMES.search(why) for why in said) or re.search(rf'^note: `[^`]*` of {file} may be false', log, re.M):
            return True
    return False


def functions(crates):
    """Each wrong line of code is refused at the function that it stands in, a wrong constant at one that names it."""
    count = 0
    for crate in crates:
        for edit in edits_of(crate):
            for file, old, _ in pairs(edit):
                if not file.startswith('src/'):
                    continue
                count += 1
                names = functions_at(crate, file, old)
                if not any(refused(log_of(crate, edit.stem), name) for name in names):
                    fail(f'{crate}/{edit.stem}: the wrong line of {", ".join(names) or "no function"} is not refused there')
    return count


def exported(crate):
    """The public functions of a crate: those of its lib.rt, and what it hands on by name."""
    text = (ROOT / 'crates' / crate / 'src' / 'lib.rt').read_text()
    named = re.findall(r'^\s*pub (?:extern "C" )?fn (\w+)', text, re.M)
    handed = [n for names in re.findall(r'^pub use \w+::(\w+|\{[^}]*\});', text, re.M) for n in re.findall(r'\w+', names)]
    return named + [n for n in handed if n[0].islower()]


def publics(crates):
    """Each public function of a product crate is refused under an edit, its own lines wrong or those of one that it calls."""
    count = 0
    for crate in crates:
        if crate.startswith('show_') or crate in BESIDE or not (ROOT / 'crates' / crate / 'src' / 'lib.rt').exists():
            continue
        logs = '\n'.join(log_of(crate, edit.stem) for edit in edits_of(crate))
        for name in exported(crate):
            count += 1
            if not re.search(rf'^fn \S*::{name}: (?:not proved|no proof)', logs, re.M):
                fail(f'{crate}: no edit is refused at {name}')
    return count


def formed(crates):
    """No edit is refused because a definition or the code can't be read: the check comes to an end, and its first error stands in a proof."""
    for crate in crates:
        for edit in edits_of(crate):
            log = log_of(crate, edit.stem)
            first = re.search(r'^(?:\./)?(specs|proofs|src)/\S*:\d+:\d+: error', log, re.M)
            if log and (not re.search(r'^logic=not-proved', log, re.M) or first and first.group(1) != 'proofs'):
                fail(f'{crate}/{edit.stem}: a definition or a line of the edit can not be read: {first_of(log)}')


def by_themselves(log):
    """The facts that failed, and not for want of another."""
    return {plain(name) for name, why in re.findall(r'^\S+:\d+:\d+: error: `([^`]*)`: (.*)', log, re.M) if 'was not admitted' not in why}


def rules(crates):
    """Each wrong rule is refused at facts of its own: they fail, and not for want of another."""
    count = 0
    for crate in crates:
        for edit in edits_of(crate):
            failed = by_themselves(log_of(crate, edit.stem))
            taken = set()
            for label, names in RULE.findall(edit.read_text()):
                count += 1
                own = set(plain(names).split(', '))
                if own & taken or not own <= failed:
                    fail(f'{edit.stem}: {label} is not refused at {names}, and at these alone')
                taken |= own
    return count


def proof_of(statement):
    return PROOFS.get(statement) or re.sub(r'(?<=.)([A-Z])', r'_\1', statement).lower()


def rows():
    """Each row of the table 'Statement, edits that break it': statements and edits."""
    text = (ROOT / 'docs' / 'PROMISES.md').read_text()
    table = text.split('| Statement | Edits that break it |', 1)[1].split('\n\n', 1)[0]
    for row in table.split('\n')[2:]:
        cells = row.split('|')
        yield re.findall(r'`(\w+)`', cells[1]), re.findall(r'[\w/]+', cells[2])


def edit_of(label):
    """The crate and the name of an edit, or of the edit that has a wrong rule of this name; where the table gives no crate, the
    one that has it."""
    crate, _, wanted = label.rpartition('/')
    for name in [crate] if crate else WHOLE:
        for edit in edits_of(name):
            if wanted == edit.stem or wanted in (rule for rule, _ in RULE.findall(edit.read_text())):
                return name, edit.stem
    return None, wanted


def fields(path):
    """The statements that are the fields of a file's last record."""
    record = (ROOT / path).read_text().rpartition('pub record ')[2]
    return re.findall(r'^ +pub [\w-]+ : (\w+)', record, re.M)


def is_open(log, crate, statement):
    """Whether a statement's proof failed, by itself or for want of another: then the value that is made of it was not checked."""
    fact = re.escape(declared(crate, proof_of(statement))[1])
    return re.search(rf'^\./proofs/{VALUES}\.antt:\d+:\d+: error: \d+ declarations? that depends? on `{fact}`, which was ', log, re.M) is not None


def statements(crates):
    """Each statement has its row, and is not proved under any edit of the row."""
    seen = set()
    for names, edits in rows():
        for name in names:
            for label in edits:
                crate, edit = edit_of(label)
                if crate is None:
                    fail(f'{name}: there is no edit {label}')
                elif crate in crates:
                    seen.add(name)
                    if not is_open(log_of(crate, edit), crate, name):
                        fail(f'{name}: {crate}/{edit} does not fail at {proof_of(name)}')
    for name in [f for crate, file in WHOLE.items() if crate in crates for f in fields(f'crates/{crate}/specs/{file}.antt')]:
        if name not in seen:
            fail(f'the statement {name} has no row in docs/PROMISES.md')
    return len(seen)


def main():
    if sys.argv[1:] == ['--facts']:
        for log in sorted(LOGS.glob('*/*/.log')):
            print(f'{log.parent.parent.name}/{log.parent.name}: {", ".join(sorted(by_themselves(log.read_text())))}')
        return 0
    crates = sys.argv[1:] or list(USES)
    if not set(crates) <= set(USES):
        print(f'edits: there is no crate {", ".join(sorted(set(crates) - set(USES)))}')
        return 2
    attempt_all(crates)
    formed(crates)
    lines, open_to_all, wrong, said = functions(crates), publics(crates), rules(crates), statements(crates)
    if failures:
        return 1
    print(f'edits: ok, {lines} wrong lines refused at their functions, {open_to_all} public functions, {wrong} wrong rules each at a fact of '
          f'its own, {said} statements not proved under theirs')
    return 0


sys.exit(main())
