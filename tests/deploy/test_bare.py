"""Root's scripts do their work also by a path that names few programs."""
import shutil
import subprocess

import needs
from customers_place import Place
from deploying import DEPLOY
from serving import LONGEST, expect

# The path of a crontab of root's, and of `su` without a login.
BARE = "/usr/bin:/bin"
# A program of /usr/sbin that each script calls.
OF_ROOT = {"hq-as": "runuser", "hq-ask": "runuser", "hq-customers": "hq-relay", "desk-restart": "nft", "desk-backup": "runuser",
           "desk-certificate": "nginx"}
# The lines by which they find them.
PYTHON, SHELL = "    find_programs()", ":/usr/sbin:/sbin"


def test_path(folder):
    """Each of them finds programs of /usr/sbin: it prints here what it finds, in the place of its work."""
    for name, wanted in OF_ROOT.items():
        (folder / "sbin").mkdir(exist_ok=True)
        (folder / "sbin" / wanted).write_text("#!/bin/sh\n")
        (folder / "sbin" / wanted).chmod(0o755)
        text = (DEPLOY / name).read_text()
        mark, prints = f"{SHELL}\n", f"exec which {wanted}\n"
        if text.startswith("#!/usr/bin/python3"):
            mark, prints = f"{PYTHON}\n", f"    import shutil\n    sys.exit(print(shutil.which({wanted!r})))\n"
        expect(text.count(mark) == 1, name, "goes by the path of whoever calls it")
        text = text.replace(mark, mark + prints)
        for it in ("desk_erasures.py", "desk_files.py", "desk_moves.py", "desk_programs.py", "desk_restores.py"):
            shutil.copy(DEPLOY / it, folder)
        for path, content in ((folder / name, text), (folder / "desk_apart.py", (DEPLOY / "desk_apart.py").read_text())):
            path.write_text(content.replace("/usr/sbin", str(folder / "sbin")))
            path.chmod(0o755)
        told = subprocess.run([folder / name, "FOLDER", "NAME"], env={"PATH": BARE}, capture_output=True, text=True, timeout=LONGEST)
        expect(told.stdout == f"{folder}/sbin/{wanted}\n", name, "finds", told)


def test_install(folder, program):
    """The worker's installation finds the commands of Postfix."""
    needs.root()
    needs.that(not shutil.which("postconf", path=BARE) and shutil.which("postconf"), "Postfix whose commands are root's")
    place = Place(folder, program)
    (place.folder / "relay.csv").write_text((place.folder / "north.csv").read_text())
    (place.folder / "senders.csv").write_text("kind,name,customer\n")
    told = subprocess.run([DEPLOY.parent / "relay/worker", place.folder / "relay.ini", "install", "--dry-run"], env={"PATH": BARE},
                          capture_output=True, text=True, timeout=LONGEST)
    expect("there is no post" not in told.stderr and "main.cf" in told.stdout + told.stderr, "it tells", told)
