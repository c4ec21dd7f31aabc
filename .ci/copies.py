"""Copies of some crates with a change to the definitions, and where the prover refuses them."""
import re
import shutil
import subprocess
import tempfile
from contextlib import contextmanager
from pathlib import Path

ROOT = Path(__file__).resolve().parent.parent

# what the prover says of a name that is no longer there, and where it came to a limit of its own
GONE = re.compile(r'has no field|is not in scope|has no `|that can be named from here')
LIMITS = re.compile(r'antt ran out of (stack|the (steps|memory))|(outgrew the memory limit|stopped at the step limit) \(')


def needed(crates):
    """The crates and what they depend on, as crates.txt has them: of each what kind it is, and the crates that it uses."""
    lines = [line.split('#')[0] for line in (ROOT / 'crates.txt').read_text().splitlines()]
    found = [re.match(r' *(\w+)((?: staticlib)?) *:(.*)', line) for line in lines]
    depends = {m[1]: (m[2], m[3].split()) for m in found if m}
    wanted, left = [], list(crates)
    while left:
        name = left.pop()
        if name in depends and name not in wanted:
            wanted.append(name)
            left += depends[name][1]
    return {name: depends[name] for name in wanted}


def without_functions(crate):
    """Takes the functions and their proofs out of a crate; its types, definitions and laws stay."""
    for file in (crate / 'src').glob('*.rt'):
        kept = re.sub(r'^(impl|pub fn|fn) .*?^}\n', '', file.read_text(), flags=re.M | re.S)
        file.write_text(kept)
    for part in (crate / 'proofs').iterdir():
        if part.is_dir():
            shutil.rmtree(part)


@contextmanager
def copy_of(*crates):
    """A folder with the crates and what they need, where they may be changed."""
    with tempfile.TemporaryDirectory() as folder:
        root = Path(folder)
        depends = needed(crates)
        for name in depends:
            shutil.copytree(ROOT / 'crates' / name, root / 'crates' / name, ignore=shutil.ignore_patterns('out', 'must-fail'))
        (root / 'crates.txt').write_text(''.join(f'{name}{kind}: {" ".join(words)}\n' for name, (kind, words) in depends.items()))
        yield root


@contextmanager
def definitions_of(*crates):
    """The same where the definitions may be changed: the functions of rules are left out, since a change is held to what is claimed and
    proved of the definitions, and no claim or law rests on a function."""
    with copy_of(*crates) as root:
        without_functions(root / 'crates' / 'rules')
        yield root


def check(root, crate):
    """The status and the output of a check of the crate."""
    run = subprocess.run(['rt', 'check'], cwd=root / 'crates' / crate, text=True, capture_output=True)
    return run.returncode, run.stdout + run.stderr


def refusals(out):
    """Where the prover refused: each function or file with the declarations there, as 'page::page_at returns-2, Merge merge_end'.
    What only rests on a refused declaration is no refusal of its own."""
    places = {}
    for file, name in re.findall(r'^(?:\./)?(?:proofs|specs)/(\S+)\.antt:\d+:\d+: error: `([^`]+)`: ', out, flags=re.M):
        path = file.split('/')
        place = '::'.join(path[:-1]) if path[-1] in ('Proof', 'Answers', 'Invariants') else path[-1]
        places.setdefault(place, set()).add(name)
    # A function whose proof the prover finds by itself.
    for place, names in re.findall(r'^fn \w+::(\S+): no proof: .*`search` did not prove (.*)', out, flags=re.M):
        places.setdefault(place, set()).update(re.findall(r'`([^`]+)`', names))
    return ', '.join(f'{place} {" ".join(sorted(names))}' for place, names in sorted(places.items()))


def only_noted(out):
    """Goals that stay unproved beside a function's refused answers: the prover has no error for these, but a note."""
    named = re.split(r'[ ,]+', refusals(out))
    return [goal for goal in re.findall(r'^note: src/\S+\.rt:\d+:\d+: .*\(`([^`]+)`\)', out, flags=re.M) if goal not in named]


def by_form(out):
    """A line that says that a proof names what is no longer there, or that the prover came to a limit: such a refusal shows nothing of the meaning."""
    return next((line for line in out.splitlines() if GONE.search(line) or LIMITS.search(line)), None)
