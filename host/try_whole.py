#!/usr/bin/env python3
"""Tries whole each must-fail edit of several wrong programs. rt ci says of an edit the first fact that refuses it; rt
check of a crate that is edited so says all of them. Each is tried in a copy of the tree, over what lies in out/, some
side by side. Leaves target/whole.log, which host/verify_edits.py reads: of each edit a line `whole CRATE/EDIT`, and then
each line in which rt says what is not proved. Where an edit cannot be tried, or is proved, it says so and leaves no log.

  try_whole.py            all of them
  try_whole.py CRATE..    those of these crates; the log then has no others
"""
import concurrent.futures
import os
import queue
import re
import shutil
import subprocess
import sys
import tempfile

from verify_edits import WHOLE, WHOLE_OF, changed, refused_at
from verifying import ROOT, contents, ended, sure

MOST = 4  # copies of the tree: each takes near 1 GB of disk, and its check up to 2 GB of memory
LIMIT = 1200  # seconds for a check
FACT = re.compile(r"^(?:note: )?\S+:\d+:\d+: .*", re.M)
REFUSED = "logic=not-proved"


def several(crates):
    """The edits of several wrong programs, each by its crate and name: of crates that stand on others first, so that no
    crate that was edited is built for another."""
    listed = re.findall(r"^(\w+)\b.*:", contents("crates.txt"), re.M)
    paths = [path.relative_to(ROOT) for path in sorted(ROOT.glob("crates/*/must-fail/*.edit"))]
    edits = [(path.parts[1], path.stem) for path in paths if len(refused_at(path)) > 1]
    having = {crate for crate, _ in edits}
    sure(having <= {*listed}, "crates.txt does not list each crate that has edits")
    sure({*crates} <= having, f"these have edits of several wrong programs: {' '.join(sorted(having))}")
    edits = [(crate, edit) for crate, edit in edits if not crates or crate in crates]
    return sorted(edits, key=lambda edit: listed.index(edit[0]), reverse=True)


def tried(crate, edit, tree):
    """What rt check says of a crate with an edit. The crate is then as it was."""
    folder = f"{tree}/crates/{crate}"
    texts = changed(crate, edit)
    for path, text in texts.items():
        with open(f"{folder}/{path}", "w", encoding="utf-8") as file:
            file.write(text)
    ran = subprocess.run(["rt", "check", "--jobs", "1"], cwd=folder, capture_output=True, text=True, errors="replace", timeout=LIMIT)
    for path in texts:
        shutil.copy(ROOT / "crates" / crate / path, f"{folder}/{path}")
    said = ran.stdout + ran.stderr
    sure(ran.returncode == 1 and REFUSED in said, f"{crate}/{edit}: rt check ended with status {ran.returncode}\n{said[-2000:]}")
    return "\n".join([WHOLE_OF.format(crate, edit), *FACT.findall(said), ""])


def copied(tree):
    """A copy of the tree."""
    shutil.copytree(ROOT / "crates", f"{tree}/crates")
    shutil.copy(ROOT / "crates.txt", tree)
    return tree


def all_tried(edits, workers):
    """What rt check says of all edits, as many at a time as workers, each in a tree that no other one uses meanwhile."""
    trees = queue.SimpleQueue()

    def of(edit):
        tree = trees.get()
        try:
            return tried(*edit, tree)
        finally:
            trees.put(tree)

    with tempfile.TemporaryDirectory(prefix="whole-") as work, concurrent.futures.ThreadPoolExecutor(workers) as pool:
        for number in range(workers):
            trees.put(copied(f"{work}/{number}"))
        return [*pool.map(of, edits)]


def main(crates):
    (ROOT / WHOLE).unlink(missing_ok=True)
    edits = several(crates)
    logs = all_tried(edits, min(len(edits), os.cpu_count(), MOST))
    (ROOT / WHOLE).parent.mkdir(exist_ok=True)
    (ROOT / WHOLE).write_text("".join(logs), encoding="utf-8")
    print(f"{len(logs)} edits of several wrong programs tried whole")
    return 0


if __name__ == "__main__":
    sys.exit(ended(lambda: main(sys.argv[1:])))
