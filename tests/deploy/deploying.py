"""Desks and nginx by the files of deploy/, on loopback and in a folder: for the tests of them.

The files are read as they stand. Only addresses, ports and the folders of a machine are replaced.
"""
import json
import os
import re
import shlex
import shutil
import signal
import ssl
import subprocess
import threading
import time
from pathlib import Path

from serving import ACME, HEADER, LONGEST, RELAY, Wrong, asked, expect, free_address, listens, named, until

DEPLOY = Path(__file__).resolve().parents[2] / "deploy"
HAS_IPV6 = Path("/proc/net/if_inet6").exists()
TEMPORARY = "client_body", "proxy", "fastcgi", "uwsgi", "scgi"

# The directories of two desks, and a session that stands for a key.
ROWS = ["acme,acmekey000000001,1000,500000000,1000,100,14400"]
OTHERS = ["birch,birchkey00000001,100,1000000,100,10,0"]
SESSIONS = f'"1 s1" {ACME};\n'


def settings_of(path):
    """The settings of a unit of systemd, each with its last value."""
    return {name: values[-1] for name, values in all_settings_of(path).items()}


def all_settings_of(path):
    """The settings of a unit of systemd, each with all its values."""
    found = {}
    for line in path.read_text().replace("\\\n", " ").split("\n"):
        if "=" in line and not line.startswith("#"):
            name, value = line.split("=", 1)
            found.setdefault(name, []).append(value)
    return found


def seconds(text):
    """A time of systemd's, as `100ms`, in seconds."""
    return float(text[:-2]) / 1000 if text.endswith("ms") else float(text.rstrip("s"))


class Desk:
    """A desk by its unit, as systemd runs it: whenever it ends it is started again."""

    def __init__(self, folder, program, name, rows, address=None, keys=()):
        self.folder, self.program, self.name, self.more = Path(folder), program, name, {}
        # (so that it is not started again while it is stopped)
        self.turn = threading.Lock()
        self.address = address or named(free_address())
        self.process, self.keeper, self.runs = None, None, False
        self.directory, self.store = self.folder / f"{name}.csv", self.folder / f"{name}.db"
        self.has(rows)
        (self.folder / f"{name}.key").write_text(f"{RELAY}\n")
        settings = {"HOST": "relay.example", "LISTEN": self.address, **self.has_keys(keys)}
        lines = "".join(f"{it}={value}\n" for it, value in settings.items())
        (self.folder / f"{name}.env").write_text(lines)
        self.unit = settings_of(DEPLOY / "hq-desk@.service")
        before = dict([self.unit["Environment"].split("=", 1)])
        self.words = self.of_the_place(self.unit["ExecStart"], {**before, **settings})

    def has(self, rows):
        """The rows of its directory, of the next start on."""
        self.directory.write_text(HEADER + "".join(f"{it}\n" for it in rows))

    def has_keys(self, rows):
        """Its named keys, and what its settings have of them."""
        if not rows:
            return {}
        path = self.folder / f"{self.name}.keys.csv"
        path.write_text("customer,name,key,right\n" + "".join(f"{it}\n" for it in rows))
        return {"KEYS": f"--keys={path}"}

    def of_the_place(self, words, settings):
        """The words of a unit, with this place and these settings: `${NAME}` is a part of a word, `$NAME` any number of words."""
        places = {"/usr/bin/hq": self.program, "/usr/libexec/hq-desk": DEPLOY, "/etc/hq": self.folder,
                  "/var/lib/hqdesk": self.folder, "/var/log/hqdesk": self.folder, "%i": self.name,
                  **{form: value for it, value in settings.items() for form in (f"${{{it}}}", f"${it}")}}
        for it, value in places.items():
            words = words.replace(it, str(value))
        return shlex.split(words)

    def check(self, *instead):
        """What the unit of the check runs, with other words for those that call systemctl."""
        unit = settings_of(DEPLOY / "hq-desk-check@.service")
        words = self.of_the_place(unit["ExecStart"], {"LISTEN": self.address})
        return [*words[:words.index("systemctl")], *instead]

    def __enter__(self):
        self.start()
        return self

    def __exit__(self, *_):
        self.stop()

    def start(self):
        """Starts it, and waits until it listens; where it does not, nothing of it is left."""
        self.runs = True
        self.begin()
        try:
            until(lambda: self.listens() or self.process.poll() is not None,
                  f"the desk {self.name} does not start")
            expect(self.process.poll() is None, f"the desk {self.name} ended:", self.errors())
        except BaseException:
            self.stop()
            raise
        self.keeper = threading.Thread(target=self.keep, daemon=True)
        self.keeper.start()

    def begin(self):
        with open(self.folder / f"{self.name}.out", "wb") as out, \
                open(self.folder / f"{self.name}.err", "ab") as err:
            masked = ["sh", "-c", f'umask {self.unit["UMask"]}; exec "$@"', "sh", *self.words]
            self.process = subprocess.Popen(masked, stdin=subprocess.DEVNULL, stdout=out,
                                            stderr=err, env={**os.environ, **self.more})

    def listens(self):
        return (self.folder / f"{self.name}.out").read_bytes().endswith(b"\n")

    def keep(self):
        """Starts it again whenever it ends, as its unit says."""
        expect(self.unit["Restart"] == "always", "the unit does not start a desk again")
        while True:
            self.process.wait()
            if not self.runs:
                return
            time.sleep(seconds(self.unit["RestartSec"]))
            with self.turn:
                if self.runs:
                    self.begin()

    def errors(self):
        return (self.folder / f"{self.name}.err").read_text()

    def stop(self):
        with self.turn:
            self.runs = False
        if self.process:
            self.process.terminate()
            self.process.wait(LONGEST)
            if self.keeper:
                self.keeper.join(LONGEST)
            self.process = self.keeper = None

    def ask(self, method, path, key=RELAY, body=None):
        return asked(self.address, method, path, key, body)


def done(found, *told):
    """The body of a reply that has to be 200."""
    status, body = found
    expect(status == 200, *told, "got", status, body)
    return body


class Nginx:
    """An nginx by a configuration of its own in a folder."""

    def __init__(self, folder, configuration, address):
        self.folder, self.address = folder, address
        asked_for = ["nginx", "-e", folder / "begun.log", "-p", folder, "-c", folder / configuration]
        if "daemon off" not in (folder / configuration).read_text():
            asked_for += ["-g", "daemon off;"]
        self.process = subprocess.Popen(asked_for, stdin=subprocess.DEVNULL,
                                        stdout=subprocess.DEVNULL, stderr=subprocess.DEVNULL)
        try:
            # (it listens before it has a worker)
            until(lambda: self.listens() and self.workers(), "nginx does not listen")
        except BaseException:
            self.stop()
            raise

    def log(self):
        path = self.folder / "begun.log"
        return path.read_text()[-500:] if path.exists() else ""

    def listens(self):
        expect(self.process.poll() is None, "nginx ended:", self.log())
        host, _, port = self.address.rpartition(":")
        return listens((host, int(port)))

    def workers(self):
        path = Path(f"/proc/{self.process.pid}/task/{self.process.pid}/children")
        return set(path.read_text().split())

    def reload(self):
        """Has it read its files again, and waits until no worker goes by the old ones."""
        before = self.workers()
        self.process.send_signal(signal.SIGHUP)
        until(lambda: self.workers() and not self.workers() & before, "nginx does not reload")

    def stop(self):
        self.process.terminate()
        try:
            self.process.wait(LONGEST)
        except subprocess.TimeoutExpired:
            self.process.kill()
            raise Wrong("nginx does not end") from None


class Proxy:
    """nginx for customers, with a certificate of its own, and nginx for workers, before these desks:
    by the files of deploy/."""

    def __init__(self, folder, desks, without_limits=False, sessions=""):
        self.folder, self.desks, self.sessions = Path(folder), desks, sessions
        self.public, self.inner, self.plain = (named(free_address()) for _ in range(3))
        self.front = self.back = None
        self.folder.mkdir(exist_ok=True)
        # (its worker is another user where it is begun by root)
        self.folder.chmod(0o755)
        self.certificate()
        self.configure(without_limits)
        self.maps()
        try:
            self.start()
        except BaseException:
            self.stop()
            raise

    def __enter__(self):
        return self

    def __exit__(self, *_):
        self.stop()

    def certificate(self):
        names = ["-subj", "/CN=desk.example", "-addext", "subjectAltName=IP:127.0.0.1"]
        kind = ["openssl", "req", "-x509", "-newkey", "ec", "-pkeyopt", "ec_paramgen_curve:P-256"]
        subprocess.run([*kind, "-nodes", "-days", "2", "-keyout", self.folder / "tls.key", "-out",
                        self.folder / "tls.crt", *names], check=True, stderr=subprocess.DEVNULL)
        self.context = ssl.create_default_context(cafile=self.folder / "tls.crt")

    def put(self, name, to, places):
        """A file of deploy/ with the addresses and the folders of this test."""
        text = (DEPLOY / name).read_text()
        for old, new in places.items():
            expect(old in text, f"deploy/{name} has no", old)
            text = text.replace(old, new)
        (self.folder / to).write_text(text)

    @staticmethod
    def of_ipv6(address):
        """A line for the same port of IPv6; where the machine has none, for the same address once more, as a comment."""
        port = address.rpartition(":")[2]
        return f"listen [::1]:{port}" if HAS_IPV6 else f"# no IPv6: {port}"

    def configure(self, without_limits):
        folder = str(self.folder)
        as_user = "" if os.getuid() else "user www-data;\n"
        self.listen()
        (self.folder / "nginx-name.conf").write_text("server_name desk.example;\n")
        temporary = "".join(f"  {it}_temp_path {folder}/{it};\n" for it in TEMPORARY)
        self.put("nginx-main.conf", "nginx.conf", {
            "user hqproxy;\n": as_user,
            "/run/nginx.pid": f"{folder}/nginx.pid", "/var/log/nginx": folder, "/var/log/hq-nginx/error.log": f"{folder}/alerts.log",
            "  include /etc/nginx/conf.d/*.conf;\n": f"{temporary}  include {folder}/hq-desk.conf;\n"})
        self.put("nginx.conf", "hq-desk.conf", {
            "/etc/hq": folder, "/var/log/hq-nginx": folder, "/usr/share/hq-desk/web": f"{folder}/web",
            "/var/www/html": f"{folder}/www"})
        self.put("nginx-workers.conf", "nginx-workers.conf", {
            # (its unit has another user)
            "worker_processes 1;\n": f"{as_user}worker_processes 1;\n", "127.0.0.1:824": self.inner, "/etc/hq": folder,
            "/var/cache/hq-desk-workers": f"{folder}/workers"})
        for name in ("nginx-errors.conf", "nginx-refusals.conf"):
            shutil.copy(DEPLOY / name, self.folder)
        (self.folder / "workers").mkdir(exist_ok=True)
        (self.folder / "workers").chmod(0o755)
        if without_limits:
            path = self.folder / "hq-desk.conf"
            path.write_text(re.sub(r"(?m)^ *limit_(req|conn) .*;\n", "", path.read_text()))
        shutil.copytree(DEPLOY.parent / "web", self.folder / "web", dirs_exist_ok=True)
        (self.folder / "sessions.map").write_text(self.sessions)

    def listen(self):
        """Where nginx listens, by the file of deploy/ for its release."""
        told = subprocess.run(["nginx", "-v"], stderr=subprocess.PIPE, text=True, check=True).stderr
        release = tuple(map(int, re.search(r"nginx/(\d+)\.(\d+)\.(\d+)", told).groups()))
        kind = "1.25" if release >= (1, 25, 1) else "1.22"
        self.put(f"nginx-listen-{kind}.conf", "nginx-listen.conf", {
            "listen 443": f"listen {self.public}", "listen [::]:443": self.of_ipv6(self.public)})
        self.put("nginx-listen-80.conf", "nginx-plain.conf", {
            "listen 80;": f"listen {self.plain};", "listen [::]:80;": f"{self.of_ipv6(self.plain)};"})

    def maps(self):
        """Writes which desk has whom, by the script."""
        desks = [f"{it.address}={it.directory}" for it in self.desks]
        subprocess.run([DEPLOY / "desk-maps", self.folder, *desks], check=True, timeout=LONGEST,
                       stdout=subprocess.DEVNULL)

    def start(self):
        self.front = Nginx(self.folder, "nginx.conf", self.public)
        self.back = Nginx(self.folder, "nginx-workers.conf", self.inner)

    def stop(self):
        for it in (self.front, self.back):
            if it:
                it.stop()
        self.front = self.back = None

    def restart(self):
        self.stop()
        self.start()

    def reload(self):
        for it in (self.front, self.back):
            it.reload()

    def with_text(self, old, new):
        """Has this text in the place of another one in the files of both, and goes by it."""
        for name in ("hq-desk.conf", "nginx-workers.conf"):
            path = self.folder / name
            path.write_text(path.read_text().replace(old, new))
        self.reload()

    def ask(self, method, path, key=None, body=None, **more):
        """A customer asks, over TLS."""
        return asked(self.public, method, path, key, body, self.context, **more)

    def relay(self, path, body=None):
        """A worker asks, on loopback."""
        return asked(self.inner, "POST", path, RELAY, body)

    def logged(self):
        """The lines of the log of customers' nginx."""
        return [json.loads(it) for it in (self.folder / "hq-desk.log").read_text().splitlines()]
