"""The lines of the mails that the worker writes."""
from types import SimpleNamespace

import pytest
from hq_relay.desk.replies import Notice
from hq_relay.notices.mail import Original, written

SETTINGS = SimpleNamespace(host="relay.example", notices_from="postmaster@relay.example")
# A line of a mail has at most 998 bytes and its end (RFC 5322, 2.1.1).
LONGEST = 998


TEXTS = {"one word": "x" * 1000, "many words": " ".join(["word"] * 200), "two words": "x" * 899 + " " + "y" * 100}


@pytest.mark.parametrize("text", TEXTS.values(), ids=TEXTS)
def test_long_texts(text):
    """A line stays within the limit, and the text of the other side is told whole, but for spaces."""
    group = f"Final-Recipient: rfc822; bob@far.example\r\nAction: failed\r\nStatus: 5.0.0\r\nDiagnostic-Code: x-desk; {text}"
    notice = Notice("failure", "1", "ann@a.example", 0, "Undelivered", f"bob@far.example: 5.0.0 {text}",
                    f"Reporting-MTA: dns; relay.example\r\n\r\n{group}\r\n\r\n")
    mail = written(SETTINGS, notice, Original())
    assert max(map(len, mail.split(b"\r\n"))) <= LONGEST
    told = b"".join(mail.partition(b"Diagnostic-Code: x-desk;")[2].split())
    assert told.startswith("".join(text.split()).encode())
