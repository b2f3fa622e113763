"""Libraries for C over crates of a repository that rt has proved, built in a temporary folder."""
import ctypes
import shutil
import subprocess
import sys
import tempfile
from pathlib import Path

HERE = Path(__file__).resolve().parent.parent

# how a slice of bytes is handed to a function: where it starts, and its length
SLICE = ctypes.c_char_p, ctypes.c_size_t


def run(where, *words):
    done = subprocess.run(words, cwd=where, capture_output=True, text=True)
    if done.returncode:
        sys.exit('%s\n%s%s' % (' '.join(words), done.stdout[-2000:], done.stderr[-2000:]))


def below(root, names):
    """the lines of crates.txt of these crates and of all that they rest on"""
    lines = dict(line.split(':') for line in (root / 'crates.txt').read_text().splitlines())
    wanted, found = list(names), set()
    while wanted:
        name = wanted.pop()
        if name in lines and name not in found:
            found.add(name)
            wanted += lines[name].split()
    return {name: rests for name, rests in lines.items() if name in found}


def archive(root, source, *names):
    """the static library of a source file over these crates"""
    with tempfile.TemporaryDirectory() as folder:
        made = Path(folder)
        crates = below(root, names)
        lines = ['%s:%s\n' % line for line in crates.items()]
        lines.append('made staticlib: %s\n' % ' '.join(crates))
        (made / 'crates.txt').write_text(''.join(lines))
        for name in crates:
            shutil.copytree(root / 'crates' / name, made / 'crates' / name)
        (made / 'crates/made/src').mkdir(parents=True)
        (made / 'crates/made/src/lib.rt').write_text('#![tactic(auto)]\n\n' + source.lstrip())
        run(made / 'crates/made', 'rt', 'lib')
        return (made / 'crates/made/out/libmade.a').read_bytes()


def loaded(source, *names):
    """the functions of a source file over these crates of this repository, to be called"""
    with tempfile.TemporaryDirectory() as folder:
        held, shared = Path(folder) / 'libmade.a', Path(folder) / 'made.so'
        held.write_bytes(archive(HERE, source, *names))
        run(folder, 'cc', '-shared', '-o', str(shared), '-Wl,--whole-archive', str(held),
            '-Wl,--no-whole-archive')
        return ctypes.CDLL(str(shared))
