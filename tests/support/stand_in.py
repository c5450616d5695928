"""A stub in the place of a desk: it writes down what it is asked, and replies as a test has it."""
import itertools
import json
import threading
from http.server import BaseHTTPRequestHandler, HTTPServer


class Handler(BaseHTTPRequestHandler):
    def do_POST(self):
        body = self.rfile.read(int(self.headers["Content-Length"] or 0))
        self.server.asked.append((self.path, self.headers["X-Desk-Key"], body))
        status, told = self.server.reply(body)
        self.send_response(status)
        self.send_header("Content-Length", str(len(told)))
        self.end_headers()
        self.wfile.write(told.encode())

    def log_message(self, *_):
        pass


class StandIn(HTTPServer):
    """`asked` has the path, the key and the body of each request; `reply` makes a status and a text of a body."""

    def __init__(self, reply=None):
        super().__init__(("127.0.0.1", 0), Handler)
        self.asked, self.reply = [], reply

    def __enter__(self):
        threading.Thread(target=self.serve_forever, daemon=True).start()
        return self

    def __exit__(self, *_):
        self.shutdown()
        self.server_close()


def by_hundreds(names, members, fault=None):
    """What a desk of these customers replies to a call of all from one of them on; with 91 at one of them."""
    def reply(body):
        start = json.loads(body)["from"]
        left = names[names.index(start) if start else 0:]
        done = [*itertools.takewhile(lambda name: name != fault, left[:100])]
        behind = left[len(done):len(done) + 1]
        is_stopped = len(done) < 100 and behind == [fault]
        told = {"done": [{"customer": name, **members} for name in done], "next": behind[0] if behind else None,
                "stopped": {"customer": fault, "error": 91, "name": "Disk"} if is_stopped else None}
        return 200, json.dumps(told)
    return reply
