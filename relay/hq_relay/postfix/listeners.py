"""What `install` tells of the listeners of a firm's own, which it leaves alone: whether their mail
comes to the worker, and to nobody else."""
import re
from collections.abc import Iterable, Iterator
from pathlib import Path

from hq_relay.postfix import lines
from hq_relay.postfix.configuration import run
from hq_relay.settings import Settings

# How the parameters are called by which a listener asks, and what stands between the words of
# their values.
RESTRICTIONS, BETWEEN = "_restrictions", re.compile(r"[\s,{}]+")
# A service at the port of mail, to which a name in DNS may lead; and a network of this machine.
AT_PORT_25 = re.compile(r"(?:.*:)?(?:smtp|25)/inet")
OWN_NETWORK = re.compile(r"(?:^|[\s,])(?:127\.|\[::1\]|\[::ffff:127)")


def hints(settings: Settings) -> Iterator[str]:
    """The steps that are left to do by hand at these listeners."""
    way = lines.way_to_the_worker(settings)
    asking = " ".join(f"-o {it}={value}" for it, value in lines.questions(settings).items())
    leading = led(settings.front)
    right = [name for name, found in leading.items() if f"content_filter={found}" == way]
    if not settings.customers_at and not right:
        yield f"add to your listener of customers in master.cf: -o {way} {asking}".rstrip()
    for name in right:
        if not asks(settings, name):
            yield (f"{name} in master.cf takes customers' mail and does not ask the worker, as"
                   f" `policy` wants it: give it {asking}")
    # (from port 1024 on any user of the machine may listen there, and is handed that mail)
    for name, found in leading.items():
        if name not in right:
            yield (f"{name} in master.cf hands customers' mail to {found}, where the worker"
                   f" does not listen: give it -o {way}")
    if settings.domains:
        yield from trusting(settings.front, leading)


def led(front: Path) -> dict[str, str]:
    """Where services have mail of the desk go, by their names."""
    told = run("postconf", "-c", front, "-Px", "*/*/content_filter").stdout.splitlines()
    found = (line.partition(" = ") for line in told)
    return {name.removesuffix("/content_filter"): value for name, _, value in found
            if value.startswith("desk:")}


def asks(settings: Settings, name: str) -> bool:
    """Whether a listener asks the worker before it takes mail. What that refuses bounces else.

    What is permitted by an earlier word is taken unasked.
    """
    for parameter, value in lines.questions(settings).items():
        if not parameter.endswith(RESTRICTIONS):
            continue
        words = BETWEEN.split(option(settings.front, name, parameter))
        before, asked, _ = " ".join(["", *words, ""]).partition(f" {value.replace(',', ' ')} ")
        if not asked or " permit" in before:
            return False
    return True


def trusting(front: Path, leading: Iterable[str]) -> Iterator[str]:
    """Listeners that take mail of a domain from this machine itself, where a stranger's name in
    DNS may lead what delivers."""
    for name in filter(AT_PORT_25.fullmatch, leading):
        relays, networks = (option(front, name, parameter) for parameter in (
            "smtpd_relay_restrictions", "mynetworks"))
        if "permit_mynetworks" in relays and OWN_NETWORK.search(networks):
            yield (f"{name} in master.cf takes customers' mail from this machine itself: give it"
                   " -o mynetworks= with the networks of your customers alone")


def option(front: Path, name: str, parameter: str) -> str:
    """The value of a parameter for a service: its own, or that of main.cf."""
    own = run("postconf", "-c", front, "-Phx", f"{name}/{parameter}").stdout
    return (own or run("postconf", "-c", front, "-hx", parameter).stdout).strip()
