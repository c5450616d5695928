"""What a service that was taken over may listen at: its own ports, and no port below 1024 of another service."""
import configparser
import re

from deploying import DEPLOY, all_settings_of
from serving import expect

SETTINGS = DEPLOY.parent / "packaging/settings"
LOW_PORT, LOWEST_OF_ALL = "CAP_NET_BIND_SERVICE", 1024


def allowed(name):
    """The ports below 1024 at which a unit may listen."""
    unit = all_settings_of(DEPLOY / name)
    expect(unit.get("SocketBindDeny") == ["any"], name, "may listen anywhere")
    ports = set()
    for it in unit["SocketBindAllow"]:
        found = re.fullmatch(r"tcp:(\d+)(?:-(\d+))?", it)
        expect(found, name, "may listen at", it)
        ports |= {*range(int(found[1]), int(found[2] or found[1]) + 1)}
    return {it for it in ports if it < LOWEST_OF_ALL}


def test_each_its_own():
    """Whatever may take a port below 1024 takes its own alone, which no other unit has."""
    units = [it.name for it in sorted(DEPLOY.glob("hq-*.service")) if LOW_PORT in it.read_text()]
    ports = {it: allowed(it) for it in units}
    expect(len(units) == 3 and sum(map(len, ports.values())) == len(set().union(*ports.values())), "the ports are", ports)
    relay = configparser.ConfigParser()
    relay.read(SETTINGS / "relay.ini.example")
    desk = re.search(r"(?m)^LISTEN=(.*)$", (SETTINGS / "north.env.example").read_text())[1]
    workers = re.search(r"listen (.*);", (DEPLOY / "nginx-workers.conf").read_text())[1]
    for unit, address in (("hq-desk@.service", desk), ("hq-desk-workers.service", workers),
                          *(("hq-relay-intake.service", relay["intake"][it]) for it in ("listen", "policy"))):
        expect(int(address.rpartition(":")[2]) in ports[unit], unit, "may not listen at", address)
    # (the firewall has the same ports for desks and workers)
    rules = re.search(r"tcp dport (\d+)-(\d+) meta skuid", (DEPLOY / "hq-desk.nft").read_text())
    kept = {*range(int(rules[1]), int(rules[2]) + 1)}
    expect(ports["hq-desk@.service"] | ports["hq-desk-workers.service"] == kept, "the firewall keeps", rules[0])
