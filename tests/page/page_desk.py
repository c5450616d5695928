"""A desk with its page behind nginx, by the very lines of docs/OPERATIONS.md."""
import contextlib
import re
import shutil
from pathlib import Path

from serving import ACME, BIRCH, HEADER, RELAY, Nginx, Server, asked, expect, named, words

ROOT = Path(__file__).resolve().parents[2]
OPERATIONS = (ROOT / "docs/OPERATIONS.md").read_text()
CEDAR = "cedarkey00000001"
# acme and cedar keep a history, birch none
CUSTOMERS = f"""\
{HEADER.strip()},history
acme,{ACME},1000,500000000,1000,100,14400,1000
birch,{BIRCH},100,1000000,100,10,0,0
cedar,{CEDAR},1000,500000000,3,10,0,150
"""


def shown(begin):
    """The block of docs/OPERATIONS.md that begins so."""
    return re.search(rf"(?ms)^```\n({re.escape(begin)}.*?)^```$", OPERATIONS)[1]


SERVES, MAPS, TAKES_KEY = shown("location /v1/ "), shown("map "), shown("proxy_set_header ")
SESSION = re.search(r'"1 (\w+)" acmekey', MAPS)[1]


@contextlib.contextmanager
def desk(program, folder):
    """The program as a server, which ends with the test."""
    folder.mkdir()
    (folder / "customers.csv").write_text(CUSTOMERS)
    server = Server(words(program, "serve"), folder, 1_000_000)
    try:
        yield Desk(server.address)
    finally:
        server.stop()


def proxy(folder, address, by_cookie=False):
    """nginx before a desk at an address: it serves a copy of the page."""
    folder.mkdir()
    shutil.copytree(ROOT / "web", folder / "web")
    serves = SERVES.replace("127.0.0.1:825", named(address))
    serves = serves.replace("/usr/share/hq-desk/web", f"{folder}/web")
    if by_cookie:
        serves = serves.replace("proxy_pass", f"{TAKES_KEY.strip()} proxy_pass")
    return Nginx(folder, serves, keeps_alive=True, before=MAPS if by_cookie else "")


class Desk:
    """What is asked of a desk beside its page: to make what the page shows, and see what it did."""

    def __init__(self, address):
        self.address, self.spools = address, 0

    def response(self, method, path, key, body=None):
        return asked(named(self.address), method, path, key, body)

    def ask(self, method, path, key, body=None):
        status, told = self.response(method, path, key, body)
        expect(status == 200, method, path, body, "is told", status, told)
        return told

    def submit(self, customer, sender, *recipients, size=900):
        """Queues a message, and answers its ID."""
        self.spools += 1
        body = {"spool": f"s{self.spools}", "sender": sender, "recipients": recipients,
                "size": size}
        return self.ask("POST", f"/relay/submit/{customer}", RELAY, body)["id"]

    def report(self, customer, queue_id, **results):
        """Reports the first attempt; each result is for a list of addresses."""
        more = {"delivered": {}, "deferred": {"status": "4.2.0", "text": "mailbox busy"},
                "failed": {"status": "5.1.1", "text": "no such user <script>alert(1)</script>"}}
        outcomes = [{"recipient": it, "result": result, **more[result]} for result,
                    some in results.items() for it in some]
        self.ask("POST", f"/relay/outcome/{customer}", RELAY,
                 {"id": queue_id, "attempt": 1, "outcomes": outcomes})

    def empty(self, key):
        self.ask("POST", "/v1/delete-all", key)

    def drop_rules(self, key):
        """(a rule that an earlier test has left would judge what this one submits)"""
        while lines := self.ask("GET", "/v1/lines", key)["lines"]:
            for it in lines:
                self.ask("POST", "/v1/line-drop", key, {"class": it["class"], "pattern": it["pattern"]})

    def message(self, key, queue_id):
        return self.ask("GET", f"/v1/message/{queue_id}", key)

    def states_of_all(self, key):
        """The state of each message by its ID, page by page."""
        found, path = {}, "/v1/messages"
        while True:
            page = self.ask("GET", path, key)
            found.update((it["id"], it["state"]) for it in page["messages"])
            if not page["more"]:
                return found
            path = f"/v1/messages-after/{page['messages'][-1]['id']}"

    def states(self, key):
        """The state of each message by its ID."""
        return {it["id"]: it["state"] for it in self.ask("GET", "/v1/messages", key)["messages"]}
