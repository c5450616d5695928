"""Serves the page for customers to one's own browser, for ./try: files of a folder, and below /v1/ the replies of a desk.

It stands for the proxy of deploy/ as far as one browser on this machine needs it: no TLS, no limits.
"""
import http.client
import threading
from http.server import SimpleHTTPRequestHandler, ThreadingHTTPServer

# As a proxy of deploy/ allows them (docs/OPERATIONS.md).
LARGEST_BODY, TIMEOUT = 300_000, 60
POLICY = ("default-src 'none'; script-src 'self'; style-src 'self'; img-src 'self'; connect-src 'self'; "
          "base-uri 'none'; form-action 'none'; frame-ancestors 'none'")


def handler(desk, folder):
    """The class that answers requests, with the HOST:PORT of the desk and the folder of the page."""
    class Handler(SimpleHTTPRequestHandler):
        protocol_version = "HTTP/1.1"
        extensions_map = {**SimpleHTTPRequestHandler.extensions_map, ".js": "text/javascript"}

        def __init__(self, *given):
            super().__init__(*given, directory=str(folder))

        def answer(self):
            if self.path.startswith("/v1/"):
                return self.ask_desk()
            if self.command == "GET":
                return super().do_GET()
            return self.send_error(405)

        do_GET = do_POST = do_PUT = do_DELETE = answer

        def ask_desk(self):
            length = int(self.headers.get("Content-Length") or 0)
            if length > LARGEST_BODY:
                return self.send_error(413)
            fields = {"X-Desk-Key": self.headers["X-Desk-Key"]} if self.headers["X-Desk-Key"] else {}
            connection = http.client.HTTPConnection(desk, timeout=TIMEOUT)
            try:
                connection.request(self.command, self.path, self.rfile.read(length), fields)
                reply = connection.getresponse()
                body = reply.read()
            except (OSError, http.client.HTTPException):
                return self.send_error(502)
            finally:
                connection.close()
            self.send_response(reply.status)
            self.send_header("Content-Type", "application/json")
            self.send_header("Content-Length", str(len(body)))
            # (a proxy may say whose desk it is)
            if reply.headers["X-Desk-Customer"]:
                self.send_header("X-Desk-Customer", reply.headers["X-Desk-Customer"])
            self.end_headers()
            self.wfile.write(body)

        def end_headers(self):
            self.send_header("Content-Security-Policy", POLICY)
            self.send_header("Cache-Control", "no-store")
            super().end_headers()

        def log_message(self, *_):
            pass

    return Handler


def serve(desk, folder):
    """Serves the page at a free port of loopback until this process ends; its address."""
    server = ThreadingHTTPServer(("127.0.0.1", 0), handler(desk, folder))
    threading.Thread(target=server.serve_forever, daemon=True).start()
    return "http://{}:{}/".format(*server.server_address)
