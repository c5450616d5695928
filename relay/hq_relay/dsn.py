"""Delivery status notifications: parameters of SMTP (RFC 3461), texts of reports (RFC 3464)."""
import re

# A status at the head of a text: its class, its subject and its detail (RFC 3463).
STATUS = re.compile(r"([245])\.([0-9]{1,3})\.([0-9]{1,3})(?![0-9.])")
# Subjects of a status: the system, and its policy.
OF_THE_SYSTEM, OF_POLICY = 3, 7
# The most characters of a text that the desk takes.
LONGEST_TEXT = 1000


def xtext(text: str) -> str:
    """A text as the value of a parameter."""
    return re.sub(r"[^!-~]|[+=]", lambda found: f"+{ord(found[0]):02X}", text)


def from_xtext(text: str) -> str:
    """The text of the value of a parameter: `+` and two hexadecimal digits are a byte."""
    return re.sub(r"\+([0-9A-Fa-f]{2})", lambda found: chr(int(found[1], 16)), text)


def clean(text: object) -> str:
    """A text in one line of ASCII, as the desk takes it."""
    return " ".join(re.sub(r"[^ -~]+", " ", str(text)).split())[:LONGEST_TEXT]
