"""The rules for Prometheus and the dashboard for Grafana: promtool reads and tries them, and each metric that they name is one
that is told."""
import json
import re
import shutil
import subprocess
import time
from pathlib import Path

import needs
import pytest
from deploying import DEPLOY
from serving import LONGEST, expect

TESTS = Path(__file__).resolve().parent / "rules_test.yml"
# What node_exporter tells of the files that it reads.
OF_OTHERS = {"node_textfile_mtime_seconds"}


def promtool(folder, *words):
    found = subprocess.run(["promtool", *words], cwd=folder, capture_output=True, text=True, timeout=LONGEST)
    expect(found.returncode == 0, "promtool", *words, "tells", found.stdout[-1500:], found.stderr[-1500:])
    return found.stdout


def test_rules(folder):
    """promtool takes the rules, and each alert comes just when its test says."""
    needs.command("promtool")
    for it in (DEPLOY / "prometheus-rules.yml", TESTS):
        shutil.copy(it, folder)
    count = int(re.search(r"(\d+) rules found", promtool(folder, "check", "rules", "prometheus-rules.yml"))[1])
    promtool(folder, "test", "rules", TESTS.name)
    names = set(re.findall(r"alert: (\w+)", (DEPLOY / "prometheus-rules.yml").read_text()))
    tried = set(re.findall(r"alertname: (\w+)\n +exp_alerts:\n", TESTS.read_text()))
    expect(len(names) == count and names == tried, "of the alerts are not tried", names - tried)


def expressions():
    board = json.loads((DEPLOY / "grafana-dashboard.json").read_text())
    return [it["expr"] for panel in board["panels"] for it in panel["targets"]]


def test_dashboard(folder):
    """promtool takes each expression of the dashboard; panels stand beside each other."""
    needs.command("promtool")
    told = expressions()
    rules = [{"record": f"panel:{number}", "expr": re.sub(r"\$\w+", ".*", it)} for number, it in enumerate(told)]
    (folder / "panels.yml").write_text(json.dumps({"groups": [{"name": "panels", "rules": rules}]}))
    expect(f"{len(told)} rules found" in promtool(folder, "check", "rules", "panels.yml"), "panels are left out")
    taken = set()
    for panel in json.loads((DEPLOY / "grafana-dashboard.json").read_text())["panels"]:
        at = panel["gridPos"]
        cells = {(x, y) for x in range(at["x"], at["x"] + at["w"]) for y in range(at["y"], at["y"] + at["h"])}
        expect(not cells & taken and at["x"] + at["w"] <= 24, panel["title"], "stands on another")
        taken |= cells


def test_metrics_are_told():
    """What rules and panels ask for is what relay/metrics tells."""
    told = set(re.findall(r'"(desk_\w+)"', (DEPLOY.parent / "relay/hq_relay/metrics.py").read_text())) | OF_OTHERS
    for it in ("desk-metrics", "desk-metrics-shown"):
        told |= set(re.findall(r"# TYPE (desk_\w+)", (DEPLOY / it).read_text()))
    rules = "\n".join(re.findall(r"(?s)expr: (.*?)\n +(?:for|labels):", (DEPLOY / "prometheus-rules.yml").read_text()))
    asked = set(re.findall(r"\b(?:desk|node)_\w+", rules + "\n".join(expressions())))
    expect(len(asked) > 8 and not asked - told, "nobody tells", asked - told)


def counted(folder, says):
    """What desk-metrics writes of the settings in this folder, where systemctl does what a script says, and desks tell a count."""
    text = (DEPLOY / "desk-metrics").read_text()
    for it, here in (("/etc/hq", folder), ("/usr/libexec/hq-desk/relay/metrics", "echo")):
        expect(it in text, "it has no", it)
        text = text.replace(it, str(here))
    for name, script in (("systemctl", says), ("metrics", text)):
        (folder / name).write_text(script if script.startswith("#!") else f"#!/bin/sh\n{script}\n")
        (folder / name).chmod(0o755)
    subprocess.run([folder / "metrics", folder], env={"PATH": f"{folder}:/usr/bin:/bin"}, check=True, timeout=LONGEST)
    return (folder / "hq-desk-up.prom").read_text()


def test_units(folder):
    """Of the units that a boot starts it is told which run, and of all units which have failed."""
    (folder / "north.env").write_text("LISTEN=127.0.0.1:825\n")
    # (all is enabled, and one does not run)
    told = counted(folder, 'case "$*" in *is-active*hq-desk-workers*) exit 3 ;; '
                   "list-units*) echo 'hq-desk-retain@north.service loaded failed failed Erases'; esac")
    for unit, is_up in (("nginx", 1), ("hq-desk-workers", 0)):
        expect(f'desk_unit_up{{unit="{unit}.service"}} {is_up}\n' in told, unit, "is told so:", told)
    expect('desk_unit_failed{unit="hq-desk-retain@north.service"} 1\n' in told, "of what failed it is told:", told)


@pytest.mark.parametrize("is_up", [1, 0])
def test_at_a_path(folder, is_up):
    """Of a desk at a path, which the worker's user does not reach, it is told whether it runs; what it counted before goes."""
    for name, listen in (("north", '"unix:/run/hq-north/desk.sock"'), ("south", "127.0.0.1:826")):
        (folder / f"{name}.env").write_text(f"LISTEN={listen}\n")
    (folder / "hq-desk-north.prom").write_text("desk_messages 1\n")
    told = counted(folder, f'case "$*" in *is-active*hq-desk@north*) exit {0 if is_up else 3} ;; esac')
    expect(f'desk_up{{desk="north"}} {is_up}\ndesk_up{{desk="south"}} 1\n' in told, "it tells", told)
    found = sorted(it.name for it in folder.glob("*.prom"))
    expect(found == ["hq-desk-south.prom", "hq-desk-up.prom"], "it leaves", found)


def test_machine(folder):
    """Root tells which instances of Postfix run that `install` has written to, whatever systemd says of them, and when the
    certificate ends."""
    names = {it: folder / it for it in ("bin", "from", "to", "postfix", "postfix-desk", "postfix-other")}
    for it in names.values():
        it.mkdir()
    text = (DEPLOY / "desk-metrics-shown").read_text()
    for it, here in (("/etc/postfix", folder / "postfix"), ("/etc/hq/tls.crt", folder / "tls.crt"), ("JOURNAL = ", "JOURNAL = 'true', ")):
        expect(it in text, "it has no", it)
        text = text.replace(it, str(here))
    others = f"{folder}/postfix-desk, {folder}/postfix-other"
    postconf = f'case "$*" in *daemon_directory) echo {folder}/bin ;; *multi_instance*) echo {others} ;; esac'
    # (as Postfix has it: 0 is that nobody has the lock of this instance)
    scripts = {"postconf": postconf, "master": 'test ! -e "$3/runs"', "setpriv": "cat"}
    for name, script in {**scripts, "shown": text}.items():
        (folder / "bin" / name).write_text(script if script.startswith("#!") else f"#!/bin/sh\n{script}\n")
        (folder / "bin" / name).chmod(0o755)
    for it in ("postfix/desk-install.json", "postfix-desk/desk-install.json", "postfix-desk/runs", "postfix-other/runs"):
        (folder / it).touch()
    subprocess.run(["openssl", "req", "-x509", "-newkey", "ec", "-pkeyopt", "ec_paramgen_curve:P-256", "-nodes", "-days", "9", "-subj", "/CN=x",
                    "-keyout", folder / "tls.key", "-out", folder / "tls.crt"], check=True, capture_output=True)
    words = [folder / "bin/shown", folder / "from", folder / "to", "root"]
    subprocess.run(words, check=True, timeout=LONGEST, env={"PATH": f"{folder}/bin:/usr/bin:/bin"})
    told = (folder / "to/hq-desk-of.machine.prom").read_text()
    found = dict(re.findall(rf'desk_postfix_up{{folder="{folder}/([^"]*)"}} (.*)', told))
    expect(found == {"postfix": "0", "postfix-desk": "1"}, "of Postfix it tells", told)
    end = int(re.search(r"(?m)^desk_certificate_end_seconds (\d+)$", told)[1])
    expect(abs(end - time.time() - 9 * 86_400) < 600, "the certificate ends at", end)
