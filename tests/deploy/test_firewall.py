"""The firewall of deploy/, in a network of a test's own: who is refused, and that it may be put in place again and again.

The users of the package are not those of the machine that tests run on, so that others have their numbers.
"""
import re
import subprocess
import sys

import needs
import pytest
from deploying import DEPLOY, all_settings_of, settings_of
from serving import LONGEST, expect

# Numbers of users: the desks, the worker, Postfix, and one that is none of them.
DESK, WORKER, POSTFIX, STRANGER, PROXY = 61001, 61002, 61003, 61004, 61005
CONNECTS = """\
import os, socket, sys, time
host, port, user, count = sys.argv[1], int(sys.argv[2]), int(sys.argv[3]), int(sys.argv[4])
listener = socket.create_server((host, port), backlog=1000)
os.setuid(user)
made = []
for at in range(count):
    try:
        made.append(socket.create_connection((host, port), 0.3, source_address=(sys.argv[5], 0) if len(sys.argv) > 5 else None))
    except OSError:
        pass
    if len(sys.argv) > 6:
        made.pop().close() if made else None
        listener.accept()[0].close() if at < int(sys.argv[6]) else None
print(len(made))
"""


class Network:
    """A network with loopback alone, in which the rules of deploy/ are put in place."""

    def __init__(self, folder):
        needs.root()
        needs.command("nft", "unshare", "ip")
        self.rules = folder / "hq-desk.nft"
        text = (DEPLOY / "hq-desk.nft").read_text()
        for name, number in (("hqdesk", DESK), ("hqrelay", WORKER), ("hqproxy", PROXY)):
            expect(name in text, "the rules name no", name)
            text = text.replace(name, str(number))
        (folder / "firewall.d").mkdir()
        self.rules.write_text(text.replace("/etc/hq", str(folder)))
        self.put = f"ip link set lo up; nft -D postfix={POSTFIX} -f {self.rules}; for it in {folder}/firewall.d/*.nft; do [ ! -e $it ] || nft -f $it; done"
        tried = subprocess.run(["unshare", "-n", "sh", "-ec", self.put], capture_output=True, text=True, timeout=LONGEST)
        needs.that(not tried.returncode, f"rules in a network of its own: {tried.stderr[-300:]}")

    def run(self, script, *words):
        """What a script prints, behind the rules; `$0` is Python."""
        ended = subprocess.run(["unshare", "-n", "sh", "-ec", f"{self.put}; {script}", sys.executable, *map(str, words)],
                               capture_output=True, text=True, timeout=LONGEST)
        expect(ended.returncode == 0, script[:80], "ended with", ended)
        return ended.stdout

    def connected(self, *words):
        """How many connections a user gets, of so many that it begins at an address and a port."""
        return int(self.run('exec "$0" -c "$@"', CONNECTS, *words))


@pytest.fixture
def network(folder):
    return Network(folder)


# Another machine with two addresses, at the end of a line: behind it, `there` runs something on it, until `$holder` is killed.
PEER = """
ip link add inner type veth peer name outer; unshare -n sleep 60 & holder=$!; sleep 0.3
ip link set outer netns $holder; ip addr add 198.51.100.1/24 dev inner; ip link set inner up
there() { nsenter -t $holder -n "$@"; }
there sh -c 'ip addr add 198.51.100.2/24 dev outer; ip addr add 198.51.100.3/24 dev outer; ip link set outer up'
"""
LISTENS = "import socket, sys, time; it = socket.create_server(('', int(sys.argv[1])), backlog=1000); time.sleep(30)"
# Prints how many connections each of these has, by `ADDRESS` or by the number of a user: the first of 150, the second of 50.
BOTH = """\
import os, socket, sys
host, port, kept = sys.argv[1], int(sys.argv[2]), []
for who, count in zip(sys.argv[3:], (150, 50)):
    if who.isdecimal():
        os.seteuid(0)
        os.seteuid(int(who))
    got = 0
    for _ in range(count):
        try:
            kept.append(socket.create_connection((host, port), 0.3, source_address=None if who.isdecimal() else (who, 0)))
            got += 1
        except OSError:
            pass
    print(got)
"""


def test_connections_of_an_address(network):
    """An address of another machine has a hundred connections to nginx, with TLS and without, and another address has its own."""
    for port in (80, 443):
        told = network.run(f'{PEER} "$0" -c "$1" {port} & listener=$!; sleep 0.5; there "$0" -c "$2" 198.51.100.1 {port} 198.51.100.2 198.51.100.3; '
                           "kill $listener $holder", LISTENS, BOTH)
        expect(told.split() == ["100", "50"], "two addresses have of 150 and 50 connections to", port, told)


def test_connections_of_a_user(network):
    """A user of the machine has a hundred connections to nginx, by whatever addresses, and takes none of those of another user."""
    for port in (80, 443):
        for host in ("127.0.0.1", "::1"):
            told = network.run(f'"$0" -c "$1" {port} & listener=$!; sleep 0.5; "$0" -c "$2" {host} {port} {STRANGER} {WORKER}; kill $listener',
                               LISTENS.replace("('', ", f"('{host}', ").replace("backlog", f"family=socket.{'AF_INET6' if ':' in host else 'AF_INET'}, backlog"), BOTH)
            expect(told.split() == ["100", "50"], "two users have of 150 and 50 connections to", host, port, told)


def test_nobody_is_there(network):
    """Postfix reaches nobody at the addresses by which the worker's policy tells destinations apart, whoever listens there."""
    named = re.search(r"(?m)^NETWORK, SIZE = (\d+), (\d+)$", (DEPLOY.parent / "relay/hq_relay/intake/policy_server.py").read_text())
    expect(named and named.groups() == ("64", "64") and "127.64.0.0/10" in network.rules.read_text(), "the addresses are others:", named)
    for host, user, wanted in (("127.66.43.51", POSTFIX, 0), ("127.127.255.255", POSTFIX, 0), ("127.66.43.51", 0, 3), ("127.0.0.1", POSTFIX, 3)):
        for port in (823, 10024, 20024):
            expect(network.connected(host, port, user, 3) == wanted, "at", host, port, "the user", user)


def test_own_port_of_mail(network):
    """Postfix reaches port 25 of this machine by none of its addresses; others do, and Postfix reaches that of other machines."""
    for host, user, wanted in (("127.0.0.1", POSTFIX, 0), ("127.0.0.2", POSTFIX, 0), ("127.0.0.2", STRANGER, 3),
                               ("127.0.0.1", WORKER, 3), ("127.0.0.1", 0, 3)):
        expect(network.connected(host, 25, user, 3) == wanted, "at", host, "the user", user)
    for host, user, wanted in (("198.51.100.1", POSTFIX, "0"), ("198.51.100.1", STRANGER, "3"), ("2001:db8::1", POSTFIX, "0"),
                               ("2001:db8::1", STRANGER, "3")):
        listens, added = CONNECTS, ""
        if ":" in host:
            listens = CONNECTS.replace("backlog", "family=socket.AF_INET6, backlog")
            added = f"ip addr add {host}/64 dev inner nodad; "
        told = network.run(f'{PEER}{added}"$0" -c "$1" {host} 25 {user} 3; kill $holder', listens)
        expect(told.split() == [wanted], "at an own address", host, "the user", user, "has", told)
    told = network.run(f'{PEER} nsenter -t $holder -n "$0" -c "$1" 25 & listener=$!; sleep 0.5; '
                       f'setpriv --reuid={POSTFIX} --clear-groups "$0" -c "$2"; kill $listener $holder', LISTENS,
                       "import socket; print(socket.create_connection(('198.51.100.2', 25), 2).getpeername()[1])")
    expect(told.split() == ["25"], "of another machine it reaches", told)


def test_a_session_of_before(network):
    """What was begun at a port of the desk's before the rules were there goes on for nobody else either."""
    told = network.run('nft delete table inet hq_desk; "$0" -c "$1"', SESSION.replace("PUT", network.put))
    expect(told.split() == ["before", "cut"], "a session of a stranger's is", told)


SESSION = """\
import os, socket, subprocess
listener = socket.create_server(("127.0.0.1", 823))
os.setresuid(61004, 61004, 0)
client = socket.create_connection(("127.0.0.1", 823), 2)
server = listener.accept()[0]
client.sendall(b"before")
print(server.recv(10).decode())
os.setresuid(0, 0, 0)
subprocess.run(["sh", "-ec", ""\"PUT""\"], check=True)
try:
    client.sendall(b"behind")
    client.settimeout(2)
    server.settimeout(2)
    print(server.recv(10).decode())
except OSError:
    print("cut")
"""


@pytest.mark.parametrize("port, users", [(824, (0, PROXY, DESK, WORKER)), (825, (0, PROXY, DESK, WORKER)), (849, (0, PROXY, DESK, WORKER)),
                                         (820, (0, WORKER, POSTFIX)), (821, (0, WORKER, POSTFIX)), (823, (0, WORKER, POSTFIX)), (10024, (0, WORKER, POSTFIX)), (10026, (0, WORKER, POSTFIX)), (10027, (0, WORKER, POSTFIX))])
def test_who_reaches_a_desk(network, port, users):
    """At the ports of desks and of the worker only the programs that ask there are let in; elsewhere everybody is."""
    for user in (0, 33, PROXY, DESK, WORKER, POSTFIX, STRANGER):
        expect(network.connected("127.0.0.1", port, user, 3) == (3 if user in users else 0), "at", port, "the user", user)
    expect(network.connected("127.0.0.1", 8026, STRANGER, 3) == 3, "at a port of others")


def test_ports_of_other_machines(network):
    """A port of the desks' numbers at another machine is no desk's: 853 and 873 are ports that others use."""
    told = network.run("ip link add d0 type dummy && ip addr add 192.0.2.1/24 dev d0 && ip link set d0 up && "
                       "setpriv --reuid=61004 --clear-groups \"$0\" -c \"$1\"; nft list chain inet hq_desk output",
                       "import socket\nmade = socket.socket()\nmade.settimeout(0.5)\n"
                       "try:\n    made.connect(('192.0.2.9', 853))\nexcept OSError as fault:\n    print(type(fault).__name__)\n")
    expect(not told.startswith("ConnectionRefused") and "counter packets 0 bytes 0" in told, "a port elsewhere:", told)


BEGINS = """\
import socket, sys, time
begun, got = time.monotonic(), 0
while got < 600 and time.monotonic() - begun < 6:
    client = socket.socket()
    client.setsockopt(socket.SOL_TCP, socket.TCP_SYNCNT, 1)
    client.settimeout(0.02)
    try:
        client.connect((sys.argv[1], 443))
        got += 1
    except OSError:
        pass
    client.close()
print(got, time.monotonic() - begun)
"""
TAKES = """\
import socket
listener = socket.create_server(("", 443), backlog=500)
while True:
    listener.accept()[0].close()
"""


@pytest.mark.parametrize("host, where, chain", [("198.51.100.1", "there", "input"), ("127.0.0.1", "", "output")])
def test_handshakes(network, host, where, chain):
    """An address, and a user of the machine, begins two hundred connections to nginx at once, and twenty a second after that: each
    costs a handshake."""
    told = network.run(f'{PEER} "$0" -c "$1" & listener=$!; sleep 0.5; {where} "$0" -c "$2" {host}; kill $listener $holder; '
                       f"nft list chain inet hq_desk {chain}", TAKES, BEGINS)
    got, took = map(float, told.split("\n", 1)[0].split())
    expect(200 <= got <= 200 + 25 * took + 20, "of one came", got, "in", took, "seconds")
    expect(re.search(r"limit rate over 20/second.*counter packets [1-9]\d* .*drop", told), "nothing was dropped:", told)


def test_counts(network):
    """Nobody from elsewhere reads the counts of node_exporter but whom a file of the administrator names."""
    (network.rules.parent / "firewall.d/prometheus.nft").write_text("add element inet hq_desk monitors { 198.51.100.3 }\n"
                                                                    "add element inet hq_desk monitors6 { 2001:db8::7 }\n")
    told = network.run(PEER + """
"$0" -m http.server 9100 --bind 0.0.0.0 >/dev/null 2>&1 & server=$!
sleep 1
for source in 198.51.100.2 198.51.100.3; do
  there curl -s -o /dev/null -w "%{http_code}\\n" --max-time 3 --interface $source http://198.51.100.1:9100/ || true
done
curl -s -o /dev/null -w "%{http_code}\\n" --max-time 3 http://127.0.0.1:9100/
kill $server $holder""")
    expect(told.split() == ["000", "200", "200"], "a stranger, a monitor and the machine itself get", told)


def test_again(network):
    """The rules are put in place again without one of them twice; a desk that is started again adds one rule, however often."""
    again = f"{network.put.partition('; ')[2]}; "
    first = network.run("nft list ruleset")
    expect(network.run(again * 3 + "nft list ruleset") == first, "put in place again they are", first)
    restart = (DEPLOY / "desk-restart").read_text()
    rules = re.search(r'(?s)RULES = """\\\n(.*?)"""', restart)[1].format(port=825, stay=10)
    (network.rules.parent / "restart.nft").write_text(rules)
    told = network.run(f"for it in 1 2 3; do nft -f {network.rules.parent}/restart.nft; done; nft list chain inet hq_restart input")
    expect(told.count(" drop") == 1, "three times started again it has", told)


def test_unit(network):
    """The unit puts in place the very file, and takes all of it away."""
    unit = settings_of(DEPLOY / "hq-desk-firewall.service")
    for name in ("ExecStart", "ExecReload"):
        base, own = all_settings_of(DEPLOY / "hq-desk-firewall.service")[name]
        expect("/usr/sbin/nft -D postfix=" in base and base.endswith("-f /etc/hq/hq-desk.nft'"), name, "is", base)
        # (a fault in a file of the administrator's takes no rule of the base away)
        expect(own.startswith("-/bin/sh -c ") and "/etc/hq/firewall.d/*.nft" in own, name, "of the administrator's files is", own)
    # (a stop, and so a restart, opens nothing)
    expect("ExecStop" not in unit, "a stop does", unit.get("ExecStop"))
    expect(network.run("nft delete table inet hq_desk; nft list ruleset") == "", "something is left")
