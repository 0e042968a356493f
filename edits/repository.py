"""The repository: its crates, and copies of it."""

import os
import shutil

from edit import read

ROOT = os.path.dirname(os.path.dirname(os.path.abspath(__file__)))


class Crates:
    """The crates of a repository's crates.txt."""

    def __init__(self, root):
        self.root, self.said = root, {}
        for line in read(f"{root}/crates.txt").split("\n"):
            head, _, used = line.partition("#")[0].partition(":")
            if head.strip():
                self.said[head.split()[0]] = sorted(used.split())

    def folder(self, name):
        return f"{self.root}/crates/{name}"

    def below(self, name):
        """Returns the crates below a crate."""
        used = [it for it in self.said[name] if it in self.said]
        return set(used).union(*(self.below(it) for it in used))

    def bottom_up(self):
        """Returns the names of all crates, each after the crates that it uses."""
        return sorted(self.said, key=lambda name: (len(self.below(name)), name))


def copy_repository(root, to, kept):
    """Copies a repository with the results of earlier checks in out/ of these crates."""

    def left_out(folder, names):
        return [it for it in names if it == ".git" or it == "out" and os.path.basename(folder) not in kept]

    shutil.copytree(root, to, symlinks=True, ignore=left_out, copy_function=copy_or_link, dirs_exist_ok=True)


def copy_crate(folder, to):
    """Copies the folder of a crate."""
    shutil.copytree(folder, to, symlinks=True, copy_function=copy_or_link)


def copy_or_link(file, to):
    """Copies a file, or links a file of out/, which has several GB. rt changes no existing file there."""
    if "/out/" in file:
        try:
            os.link(file, to)
            return
        except OSError:  # another file system
            pass
    shutil.copy2(file, to)
