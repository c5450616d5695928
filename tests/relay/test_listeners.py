"""What `install` tells of listeners of a firm's own: Postfix reads its files, and nothing of it runs."""
from types import SimpleNamespace

import needs
import pytest
from hq_relay.postfix import listeners
from serving import expect

WAY = "content_filter=desk:[127.0.0.1]:823"
LOGGED_IN = "smtpd_relay_restrictions=permit_sasl_authenticated,reject"
SMTPD = "n - n - - smtpd"
ASKS = "check_policy_service,inet:127.0.0.1:820"
ASKING = (f"-o smtpd_recipient_restrictions={ASKS} -o smtpd_end_of_data_restrictions={ASKS} -o smtpd_policy_service_default_action=DUNNO "
          "-o smtpd_policy_service_try_limit=1 -o smtpd_policy_service_timeout=10s")
SPACED = ASKS.replace(",", " ")
RIGHT = f"587 inet {SMTPD} -o {WAY}"
# The services of a master.cf, and of which of them it is told that they lead elsewhere, or trust their own machine.
CASES = {
    "right": ([f"587 inet {SMTPD} -o {WAY} -o {LOGGED_IN}"], [], []),
    "another port beside it": ([RIGHT, f"465 inet {SMTPD} -o content_filter=desk:[127.0.0.1]:10024"], ["465/inet"], []),
    "another machine": ([RIGHT, f"465 inet {SMTPD} -o content_filter=desk:[192.0.2.1]:823"], ["465/inet"], []),
    "a port that begins so": ([RIGHT, f"465 inet {SMTPD} -o {WAY}0"], ["465/inet"], []),
    "in braces": ([f"587 inet {SMTPD} -o {{{WAY}}}"], [], []),
    "another filter": ([RIGHT, f"465 inet {SMTPD} -o content_filter=scan:[127.0.0.1]:10024"], [], []),
    "trusting": ([f"smtp inet {SMTPD} -o {WAY}"], [], ["smtp/inet"]),
    "trusting at an address": ([f"192.0.2.1:25 inet {SMTPD} -o {WAY} -o mynetworks=192.0.2.0/24,127.0.0.0/8"], [],
                               ["192.0.2.1:25/inet"]),
    "of its networks alone": ([f"smtp inet {SMTPD} -o {WAY} -o mynetworks=192.0.2.0/24"], [], []),
    "of logins alone": ([f"smtp inet {SMTPD} -o {WAY} -o {LOGGED_IN}"], [], []),
    "not of the desk": ([RIGHT, f"smtp inet {SMTPD}"], [], []),
}


@pytest.mark.parametrize("services, leading, trusting", CASES.values(), ids=CASES)
def test_listeners(folder, services, leading, trusting):
    """Each listener is named whose mail comes to nobody, or to somebody else, and each that trusts its own machine."""
    needs.command("postconf")
    (folder / "main.cf").write_text("compatibility_level = 3.6\nmynetworks = 127.0.0.0/8 [::1]/128\n"
                                    "smtpd_relay_restrictions = permit_mynetworks, permit_sasl_authenticated, reject\n")
    (folder / "master.cf").write_text("".join(f"{it}\n" for it in services))
    settings = SimpleNamespace(front=folder, listen=("127.0.0.1", 823), customers_at=None, policy=None,
                               domains={"a.example": "acme"})
    found = [*listeners.hints(settings)]
    for what, names in (("does not listen", leading), ("from this machine itself", trusting)):
        expect([it.split(" in ")[0] for it in found if what in it] == names, what, "is told of", found)
    expect(len(found) == len(leading) + len(trusting), "told is", found)
    settings.domains = {}
    expect(not [it for it in listeners.hints(settings) if "itself" in it], "customers of logins are no matter of that")


def test_none(folder):
    """Where no listener leads to the worker, the line for one is told, unless `install` makes one."""
    needs.command("postconf")
    (folder / "main.cf").write_text("compatibility_level = 3.6\n")
    (folder / "master.cf").write_text(f"smtp inet {SMTPD}\n")
    settings = SimpleNamespace(front=folder, listen=("127.0.0.1", 823), customers_at=None, policy=None, domains={})
    found = [*listeners.hints(settings)]
    expect(found == [f"add to your listener of customers in master.cf: -o {WAY}"], "told is", found)
    settings.policy = ("127.0.0.1", 820)
    found = [*listeners.hints(settings)]
    expect(found == [f"add to your listener of customers in master.cf: -o {WAY} {ASKING}"], "told is", found)
    settings.customers_at = ("127.0.0.1", 819)
    expect([*listeners.hints(settings)] == [], "told is", [*listeners.hints(settings)])


@pytest.mark.parametrize("main, options, is_told", [
    ("", "", True), ("", ASKING, False), ("", f"-o smtpd_recipient_restrictions={ASKS}", True),
    ("", ASKING.replace("=check", "=reject_unknown_sender_domain,check"), False),
    (f"smtpd_recipient_restrictions = {ASKS}\nsmtpd_end_of_data_restrictions = {ASKS}\n", "", False),
    # (as Postfix' own pages write it; by a parameter of one's own; in braces, of which the last one counts)
    (f"smtpd_recipient_restrictions = reject_unlisted_recipient, {SPACED}\nsmtpd_end_of_data_restrictions = {SPACED}\n", "", False),
    (f"mua = {SPACED}\nsmtpd_end_of_data_restrictions = check_policy_service {{ inet:127.0.0.1:820, timeout=10s }}\n",
     "-o smtpd_recipient_restrictions=$mua", False),
    (f"smtpd_end_of_data_restrictions = {ASKS}\n", f"-o {{smtpd_recipient_restrictions={SPACED}}}", False),
    ("", f"{ASKING} -o smtpd_recipient_restrictions=", True),
    # (another port that begins so, and what is permitted unasked)
    ("", ASKING.replace(":820", ":8200"), True), ("", ASKING.replace("=check", "=permit_sasl_authenticated,check"), True)])
def test_asked(folder, main, options, is_told):
    """A listener that hands mail to the worker, and does not ask it before as the settings want, is named, with what it lacks."""
    needs.command("postconf")
    (folder / "main.cf").write_text(f"compatibility_level = 3.6\n{main}")
    (folder / "master.cf").write_text(f"{RIGHT} {options}\n")
    settings = SimpleNamespace(front=folder, listen=("127.0.0.1", 823), customers_at=None, policy=("127.0.0.1", 820), domains={})
    found = [*listeners.hints(settings)]
    expect([it.startswith("587/inet ") and it.endswith(ASKING) for it in found] == [True] * is_told, "told is", found)
    settings.policy = None
    expect([*listeners.hints(settings)] == [], "without `policy` it is told", found)
