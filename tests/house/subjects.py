#!/usr/bin/env python3
"""Holds the subjects of commits, and the releases, to what CONTRIBUTING.md says of them.

  python3 tests/house/subjects.py [FOLDER]     reads the history of the clone FOLDER, or of the repository itself

  a commit's subject     has at most 72 letters. Read are the commits since the last release, but for those of SINCE and
                         what comes before them
  a release's tag        is v and a version to which CHANGELOG.md gives a day

A clone that has none of SINCE and no release, since it is shallow or has no history, has nothing to be read: that is
printed, and passes. Each line is `COMMIT: what is wrong` or `TAG: what is wrong`. The last line counts the subjects
and the tags, `N passed, M failed`, and the status is 0 if none failed.
"""
import os
import re
import subprocess
import sys

TOP = os.path.join(os.path.dirname(os.path.abspath(__file__)), "..", "..")
# the last commits with longer subjects
SINCE = ("2b89ec5349c28afcfafbb20978d476a3d6b13f0a",)
MOST = 72
RELEASE = "v[0-9]*"
DATED = re.compile(r"^## ([0-9][0-9.]*), [0-9]{4}-[0-9]{2}-[0-9]{2}$", re.M)


def git(folder, *words):
    """The lines that git prints, or none where it fails."""
    done = subprocess.run(["git", "-C", folder, *words], stdout=subprocess.PIPE, stderr=subprocess.DEVNULL, check=False)
    return done.stdout.decode("utf-8", "replace").split("\n")[:-1] if done.returncode == 0 else []


def releases_in(folder):
    """The tags of the releases that the clone's commit comes after."""
    return git(folder, "tag", "--list", RELEASE, "--merged", "HEAD")


def long_subjects(folder, tags):
    """The subjects since the last release and SINCE that are too long, and how many were read; None where the clone has
    none of these."""
    known = (git(folder, "rev-parse", "--verify", "--quiet", f"{it}^{{commit}}") for it in (*SINCE, *tags))
    starts = [commit for found in known for commit in found]
    if not starts:
        return None, 0
    lines = git(folder, "log", "--format=%h %s", "HEAD", "--not", *starts)
    subjects = [line.partition(" ") for line in lines]
    return [(commit, subject) for commit, _, subject in subjects if len(subject) > MOST], len(subjects)


def main():
    """Prints what is wrong. Returns the status."""
    folder = sys.argv[1] if len(sys.argv) > 1 else TOP
    tags = releases_in(folder)
    wrong, count = long_subjects(folder, tags)
    if wrong is None:
        print("no subject was read: this clone has none of the commits SINCE, and no release")
    with open(os.path.join(TOP, "CHANGELOG.md"), encoding="utf-8") as file:
        dated = DATED.findall(file.read())
    lines = [f"{commit}: {len(subject)} letters: {subject}" for commit, subject in wrong or []]
    lines += [f"{tag}: CHANGELOG.md gives this version no day" for tag in tags if tag[1:] not in dated]
    print("".join(f"{line}\n" for line in lines), end="")
    print(f"{count + len(tags) - len(lines)} passed, {len(lines)} failed")
    return 1 if lines else 0


if __name__ == "__main__":
    sys.exit(main())
