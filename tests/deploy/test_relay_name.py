"""The lines of the pages that copy settings: whoever types them as they stand has a relay of its own name, and not that of an example."""
import os
import re
import stat
import subprocess

import pytest
from deploying import DEPLOY
from serving import LONGEST, expect

DOCS, SETTINGS = DEPLOY.parent / "docs", DEPLOY.parent / "packaging/settings"
COPIED = {"north.env": DOCS / "PRODUCTION.md", "relay.ini": DOCS / "RELAY.md"}


def typed(folder, name, **names):
    """Types the lines of a page that make this file, and set its mode, under the mask of many administrators."""
    lines = re.findall(rf"(?m)^(?:test -e|chmod \d+) /etc/hq/{re.escape(name)}.*\n", COPIED[name].read_text())
    expect(lines, "no line makes", name)
    text = "".join(lines).replace("/etc/hq/relay.key", "").replace(f"/etc/hq/{name}.example", str(SETTINGS / f"{name}.example"))
    words = ["bash", "-uc", f"umask 077\n{text.replace('/etc/hq', str(folder))}"]
    return subprocess.run(words, capture_output=True, text=True, timeout=LONGEST, env={"PATH": os.environ["PATH"], **names})


@pytest.mark.parametrize("name", COPIED)
def test_named(folder, name):
    """Each place has the name that was given; a file that is there stays, and without a name there is none."""
    expect("RELAY" in typed(folder, name).stderr and not [*folder.iterdir()], "without a name there is", [*folder.iterdir()])
    expect(typed(folder, name, RELAY="mx.firm.example").returncode == 0, "the lines fail")
    text, example = (folder / name).read_text(), (SETTINGS / f"{name}.example").read_text()
    expect("relay.example" in example and text == example.replace("relay.example", "mx.firm.example"), "it has", text)
    expect(stat.S_IMODE((folder / name).stat().st_mode) == {"north.env": 0o644, "relay.ini": 0o640}[name], "its mode is another one")
    (folder / name).write_text("mine\n")
    typed(folder, name, RELAY="other.example")
    expect((folder / name).read_text() == "mine\n", "what was there is another")
