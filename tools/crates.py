"""The crates of the repository, as crates.txt lists them, and copies of them: for the tools beside it."""
import os
import shutil

ROOT = os.path.dirname(os.path.dirname(os.path.abspath(__file__)))
PARTS = ("src", "specs", "proofs")


def read_lines():
    """The lines of crates.txt, by the names of their crates."""
    lines = {}
    with open(f"{ROOT}/crates.txt", encoding="utf-8") as it:
        for line in it:
            line = line.split("#")[0].strip()
            if line:
                lines[line.partition(":")[0].split()[0]] = line
    return lines


def read_crates():
    """The crates, lowest first, each with those of the repository that it stands on; the kit's libraries are left out."""
    lines = read_lines()
    crates = {name: [one for one in line.partition(":")[2].split() if one in lines] for name, line in lines.items()}
    order = []
    while len(order) < len(crates):
        order += [name for name in crates if name not in order and all(one in order for one in crates[name])]
    return {name: crates[name] for name in order}


def with_below(names):
    """These crates and all that they stand on, however far below, lowest first."""
    crates, found, todo = read_crates(), set(), list(names)
    while todo:
        one = todo.pop()
        if one not in found:
            found.add(one)
            todo += crates[one]
    return [name for name in crates if name in found]


def copy_crates(folder, names, proved=False):
    """Makes the folder's texts of these crates, and of those below them, the repository's, and writes their lines to its crates.txt.

    What is proved already is brought too if that is asked, where the folder has nothing proved of a crate yet.
    """
    lines, copied = read_lines(), with_below(names)
    os.makedirs(folder, exist_ok=True)
    for crate in copied:
        here, there = f"{ROOT}/crates/{crate}", f"{folder}/crates/{crate}"
        if proved and os.path.isdir(f"{here}/out") and not os.path.isdir(f"{there}/out"):
            shutil.copytree(f"{here}/out", f"{there}/out", symlinks=True)
        for part in PARTS:
            shutil.rmtree(f"{there}/{part}", ignore_errors=True)
            if os.path.isdir(f"{here}/{part}"):
                shutil.copytree(f"{here}/{part}", f"{there}/{part}")
    with open(f"{folder}/crates.txt", "w", encoding="utf-8") as it:
        it.writelines(f"{lines[crate]}\n" for crate in copied)
    return copied
