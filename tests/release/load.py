"""Asks a desk without a pause, in the machine of tests/release: load.py KEY-OF-RELAY CUSTOMER KEY. It ends when the file
`stop` is there, makes the file `enough` at a thousand calls, and prints how many calls were answered 200, what else came, and the longest that one took."""
import http.client
import json
import os
import ssl
import sys
import threading
import time
from pathlib import Path

RELAY, CUSTOMER, KEY = Path(sys.argv[1]).read_text().strip(), sys.argv[2], sys.argv[3]
WORKERS, CUSTOMERS, LONGEST = 6, 2, 60
TRUSTED = ssl.create_default_context(cafile="tls/tls.crt")
good, others, longest = 0, [], 0.0
guard = threading.Lock()


def of_worker():
    client = http.client.HTTPConnection("127.0.0.1", 824, timeout=LONGEST)
    client.request("POST", f"/relay/messages/{CUSTOMER}", b'{"after":null}', {"X-Desk-Key": RELAY})
    return client


def of_customer():
    client = http.client.HTTPSConnection("desk.example", timeout=LONGEST, context=TRUSTED)
    client.request("GET", "/v1/usage", headers={"X-Desk-Key": KEY})
    return client


def asks(call, pause):
    global good, longest
    while not os.path.exists("stop"):
        begun = time.monotonic()
        try:
            client = call()
            response = client.getresponse()
            told = response.status, response.read()[:100].decode()
            client.close()
        except OSError as fault:
            told = None, repr(fault)
        with guard:
            longest = max(longest, time.monotonic() - begun)
            good += told[0] == 200
            if told[0] != 200:
                others.append(told)
            if good > 1000:
                Path("enough").touch()
        time.sleep(pause)


them = [threading.Thread(target=asks, args=it) for it in [(of_worker, 0.005)] * WORKERS + [(of_customer, 0.1)] * CUSTOMERS]
for one in them:
    one.start()
Path("begun").touch()
for one in them:
    one.join()
print(json.dumps({"good": good, "others": others, "longest": longest}))
