"""Hands half a message to the intake, waits for the file `go`, and hands over the rest; prints the answer."""
import os
import smtplib
import time
from pathlib import Path

# (of a time to come, since mail is nobody's that came before its domain was a customer's)
IDENT = "yjZpsK03Zxz1c38d"
HEAD = (f"Received: from client.example (client.example [192.0.2.1])\r\n\tby mta.relay.example (Postfix) with ESMTPA id {IDENT}\r\n"
        "\tfor <bob@far.example>; Thu, 01 Jan 2026 00:00:00 +0000 (UTC)\r\nSubject: half\r\n\r\n")


class Client(smtplib.SMTP):
    ehlo_msg = "lhlo"


client = Client("127.0.0.1", 823, timeout=60)
client.ehlo("mta.relay.example")
for told in (client.docmd("XFORWARD", f"IDENT={IDENT}"), client.mail("ann@a.example"), client.rcpt("bob@far.example"),
             client.docmd("DATA")):
    assert told[0] in (250, 354), told
client.sock.sendall((HEAD + "first half\r\n").encode())
Path("half").touch()
while not os.path.exists("go"):
    time.sleep(0.05)
client.sock.sendall(b"second half\r\n.\r\n")
print(client.getreply()[0])
