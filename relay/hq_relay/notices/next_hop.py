"""A session with the Postfix that sends notices on."""
import smtplib
from enum import Enum
from types import TracebackType

from hq_relay.dsn import OF_THE_SYSTEM, STATUS
from hq_relay.postfix.delivering_instance import BROKEN, CLOSING
from hq_relay.settings import Settings


class Mailing(Enum):
    """What came of mailing a notice.

    It was mailed; refused for good; its recipient cannot take it now; or nobody can be reached.
    """

    DONE = "done"
    REFUSED = "refused"
    ASIDE = "aside"
    LATER = "later"


class NextHop:
    """It is opened when it is first used. `why` has the reason of the last refusal."""

    def __init__(self, settings: Settings):
        self.settings, self.why = settings, ""
        self.smtp: smtplib.SMTP | None = None

    def __enter__(self) -> "NextHop":
        return self

    def __exit__(self, kind: type[BaseException] | None, error: BaseException | None,
                 traceback: TracebackType | None) -> None:
        if self.smtp:
            self.smtp.close()

    def session(self) -> smtplib.SMTP:
        """The open session. Raises OSError or SMTPException if there is none to be had."""
        if not self.smtp:
            self.smtp = smtplib.SMTP(*self.settings.notices_hop, timeout=self.settings.timeout,
                                     local_hostname=self.settings.host)
            self.smtp.ehlo_or_helo_if_needed()
        return self.smtp

    def mail(self, recipient: str, content: bytes) -> Mailing:
        """Mails a notice from the null sender."""
        try:
            smtp = self.session()
            options = ["BODY=8BITMIME"] if smtp.has_extn("8bitmime") else []
            smtp.sendmail("", [f"<{recipient}>"], content, options)
            return Mailing.DONE
        except smtplib.SMTPRecipientsRefused as error:
            return self.judged(*next(iter(error.recipients.values())))
        except smtplib.SMTPDataError as error:
            return self.judged(error.smtp_code, error.smtp_error)
        except BROKEN as error:
            self.why, self.smtp = repr(error), None
            return Mailing.LATER

    def judged(self, code: int, text: bytes | str) -> Mailing:
        """What a refusal of this one notice means."""
        answer = text.decode("latin-1") if isinstance(text, bytes) else text
        self.why = f"{code} {answer}"
        if code >= 500:
            return Mailing.REFUSED
        found = STATUS.match(answer)
        is_of_recipient = code != CLOSING and found and int(found[2]) != OF_THE_SYSTEM
        return Mailing.ASIDE if is_of_recipient else Mailing.LATER
