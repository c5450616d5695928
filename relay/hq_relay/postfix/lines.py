"""The lines of Postfix that the worker wants, each with its reason. `install` writes them.

They are of the instance that takes mail in, the front, and of the one that delivers.
"""
from dataclasses import dataclass

from hq_relay.settings import Settings
from hq_relay.settings_values import Address

# The address of the reports of the delivering instance, in its own names; no mail of a customer may
# go there.
REPORTS_DOMAIN = "desk.invalid"
REPORTS = f"outcome@{REPORTS_DOMAIN}"
NO_SUCH_DOMAIN = "REJECT 5.1.2 no such domain"
LOOPBACK = "127.0.0.0/8 [::1]/128"
# Processes that bring mail to the worker: fewer than the sessions that it takes at once. If each
# customer has a way of its own there are more, and each way has a part of them.
MOST_TO_THE_WORKER, MOST_BY_WAYS, MOST_BY_A_WAY = 10, 20, 5
# The most bytes of the header that each instance puts before a message.
HEADER_ROOM = 4096

# What Postfix says of a name without any address but those that its filter drops, and what the
# sender of mail to it is told.
DROPPED = "name=([^ ]+) type=[A-Z]+: DNS reply filter drops all results"
LOOPS = "5.4.6 mail for $1 loops back to this machine"

# The mark before the subject of a status, if a soft failure is made a hard one.
SOFT_MARK = "9"
# A failed STARTTLS is tried again in plain text by the instance itself. Each other soft failure
# comes back as a hard one, marked in its status (RFC 3463 has no subject that begins so). A host
# that writes the mark itself, or a subject that has no room for it, counts as without subject.
# (What leads to this machine itself fails for good, as where Postfix finds its own address.)
SOFT_FAILURES = rf"""/^4\.7\.0 Error looking up {DROPPED}$/ {LOOPS}
/^4(\.7\.5 Cannot start TLS: .*)/ 4$1
/^5\.{SOFT_MARK}[0-9]*(\.[0-9]+ .*)/ 5.0$1
/^4\.([0-9]{{1,2}}\.[0-9]+ .*)/ 5.{SOFT_MARK}$1
/^4\.[0-9]+(\.[0-9]+ .*)/ 5.{SOFT_MARK}0$1
"""
# A name in DNS, whose value a stranger chooses, leads to no address of this machine itself: there
# the front takes mail as from a client that it trusts. (`0.0.0.0` and `::` are loopback too, and
# so is an address of IPv4 within one of IPv6.)
OWN_ADDRESSES = r"""/^[^ ]+ +[0-9]+ +IN +A +0\./ IGNORE
/^[^ ]+ +[0-9]+ +IN +A +127\./ IGNORE
/^[^ ]+ +[0-9]+ +IN +AAAA +::/ IGNORE
"""
TO_THE_WORKER = f"/^Content-Type: multipart\\/report/ REDIRECT {REPORTS}\n"


@dataclass(frozen=True)
class Line:
    """The value of a parameter of main.cf, or a service of master.cf.

    A proposal is left alone if somebody has set another value.
    """

    value: str
    why: str
    is_proposal: bool = False


@dataclass(frozen=True)
class Instance:
    """The lines of an instance.

    They are the parameters of main.cf, the services of master.cf by the names that `postconf -M`
    takes, and the files beside these two.
    """

    parameters: dict[str, Line]
    services: dict[str, Line]
    tables: dict[str, str]


def named(address: Address) -> str:
    """An address as master.cf has it."""
    host, port = address
    return f"[{host}]:{port}" if ":" in host else f"{host}:{port}"


def is_loopback(address: Address) -> bool:
    return address[0] in ("::1", "localhost") or address[0].startswith("127.")


def service(name: str, kind: str, processes: str, *words: str) -> str:
    """A service without chroot, which everybody may use if it is on the network."""
    return " ".join([name, kind, "n" if kind == "inet" else "-", "-", "n", "-", processes, *words])


# ---- the instance that takes mail in

def front(settings: Settings) -> Instance:
    most = most_to_the_worker(settings)
    services = {"desk/unix": Line(
        service("desk", "unix", str(most), "lmtp", "-o", "lmtp_send_xforward_command=yes"),
        f"the way to the worker, with the queue ID; at most {most} at once")}
    services.update(customers_listener(settings))
    services.update(notices_listener(settings))
    return Instance({
        "enable_long_queue_ids": Line(
            "yes", "the worker names a message by its queue ID, and short ones are used again"),
        "smtpd_sasl_authenticated_header": Line(
            "yes", "the worker finds the customer by the login"),
        "desk_destination_recipient_limit": Line(
            "1", "the worker answers each recipient by itself, also after a stop"),
        **ways(settings),
        "authorized_mailq_users": Line(
            "root", "nobody else on the machine lists senders and recipients", True),
        "authorized_flush_users": Line("root", "nobody else has all mail tried", True),
    }, services, {})


def most_to_the_worker(settings: Settings) -> int:
    most = MOST_BY_WAYS if settings.policy else MOST_TO_THE_WORKER
    return min(most, max(1, settings.connections - 1))


def ways(settings: Settings) -> dict[str, Line]:
    """How much of the way to the worker each customer may take, if each has its own way."""
    if not settings.policy:
        return {}
    return {"desk_destination_concurrency_limit": Line(
        str(MOST_BY_A_WAY), "no customer's mail takes all ways to the worker")}


def way_to_the_worker(settings: Settings) -> str:
    """The option of the listener of customers, by which mail goes to the worker."""
    host, port = settings.listen
    return f"content_filter=desk:[{host}]:{port}"


def questions(settings: Settings) -> dict[str, str]:
    """The options by which the listener of customers asks the worker; none without `policy`."""
    if not settings.policy:
        return {}
    asks = f"check_policy_service,inet:{named(settings.policy)}"
    # (while nobody answers, mail goes the common way)
    return {"smtpd_recipient_restrictions": asks, "smtpd_end_of_data_restrictions": asks,
            "smtpd_policy_service_default_action": "DUNNO", "smtpd_policy_service_try_limit": "1",
            "smtpd_policy_service_timeout": "10s"}


def customers_listener(settings: Settings) -> dict[str, Line]:
    """The listener of customers; none if the firm adds the way to the worker to its own."""
    if not settings.customers_at:
        return {}
    at = named(settings.customers_at)
    options = [way_to_the_worker(settings),
               "smtpd_relay_restrictions=permit_mynetworks,permit_sasl_authenticated,reject",
               *(f"{name}={value}" for name, value in questions(settings).items())]
    words = [word for option in options for word in ("-o", option)]
    return {f"{at}/inet": Line(service(at, "inet", "-", "smtpd", *words),
                               "takes the mail of customers; no other goes to the desk")}


def notices_listener(settings: Settings) -> dict[str, Line]:
    """The listener of notices; none if another machine takes them."""
    if not is_loopback(settings.notices_hop):
        return {}
    at = named(settings.notices_hop)
    options = ("content_filter=", "mynetworks=127.0.0.0/8,[::1]/128",
               "smtpd_client_restrictions=permit_mynetworks,reject",
               "smtpd_relay_restrictions=permit_mynetworks,reject",
               "smtpd_recipient_restrictions=")
    words = [word for option in options for word in ("-o", option)]
    return {f"{at}/inet": Line(service(at, "inet", "-", "smtpd", *words),
                               "takes notices, and does not lead back to the desk")}


# ---- the instance that delivers

def delivering(settings: Settings, uid: int, gid: int) -> Instance:
    """`uid` and `gid` are those of the worker, who reads the reports."""
    parameters = {**whose_mail(settings), **whose_commands(settings), **one_attempt(),
                  **log_kept(settings), **reports_kept(settings, uid, gid), **way_out()}
    return Instance(parameters, delivering_services(settings),
                    {"soft_failures": SOFT_FAILURES, "reports": TO_THE_WORKER,
                     "own_addresses": OWN_ADDRESSES})


def whose_mail(settings: Settings) -> dict[str, Line]:
    """It takes the worker's mail, as it comes, and no other."""
    return {
        "multi_instance_enable": Line("yes", "the instance starts with the machine"),
        "myhostname": Line(settings.host, "the name of the relay"),
        "enable_long_queue_ids": Line("yes", "an ID that was handed over never stands for another"),
        "inet_interfaces": Line("loopback-only", "the worker is on this machine"),
        "inet_protocols": Line("all", "Postfix reaches hosts by IPv6 too", True),
        "mynetworks": Line(LOOPBACK, "nobody else hands mail over"),
        "mydestination": Line("", "no mail stays here"),
        "local_recipient_maps": Line("", "no mail stays here"),
        "local_transport": Line("error:5.1.2 no mail stays here", "no mail stays here"),
        "alias_maps": Line("", "no mail stays here"),
        "alias_database": Line("", "no mail stays here"),
        "local_header_rewrite_clients": Line("", "the message goes out as it came"),
        "smtpd_relay_restrictions": Line("permit_mynetworks, reject", "as `mynetworks`"),
        "smtpd_recipient_restrictions": Line(
            f"check_recipient_access inline:{{{{{REPORTS_DOMAIN} = {NO_SUCH_DOMAIN}}}}}, "
            "permit_mynetworks, reject", "no customer writes a report"),
    }


def whose_commands(settings: Settings) -> dict[str, Line]:
    """Who may list its queue, and what it takes from the worker."""
    return {
        "authorized_mailq_users": Line(f"root, {settings.user}",
                                       "nobody else on the machine lists senders and recipients"),
        "authorized_flush_users": Line(f"root, {settings.user}", "nobody else has all mail tried"),
        "smtpd_peername_lookup": Line("no", "DNS knows nothing of loopback"),
        "smtpd_client_connection_count_limit": Line("0", "all sessions come from one address"),
        "smtpd_error_sleep_time": Line("0", "one refused message does not slow down the others"),
        "in_flow_delay": Line("0", "the worker bounds what is under way"),
        "message_size_limit": Line(str(settings.largest + HEADER_ROOM),
                                   "room for what the intake takes, and for a header"),
        "smtputf8_enable": Line("yes", "header fields past ASCII"),
    }


def one_attempt() -> dict[str, Line]:
    """Mail comes back to the worker after one attempt."""
    return {
        "default_delivery_status_filter": Line(
            "regexp:$config_directory/soft_failures",
            "one attempt: Postfix reports a soft failure"),
        "virtual_delivery_status_filter": Line("", "a report waits while the disk is full"),
        "minimal_backoff_time": Line("30s", "after a failed STARTTLS Postfix tries plain text"),
        "queue_run_delay": Line("30s", "after a failed STARTTLS Postfix tries plain text"),
        "smtp_discard_ehlo_keywords": Line(
            "silent-discard, dsn",
            "this instance reports failures, and no next host is asked to; the log has no line of "
            "that"),
    }


def log_kept(settings: Settings) -> dict[str, Line]:
    """The log by which the worker knows what was delivered."""
    lines = {
        "maillog_file": Line(str(settings.log), "the worker reads there what was delivered"),
        "smtpd_authorized_xforward_hosts": Line(
            LOOPBACK, "the log has the worker's ID of each message"),
    }
    if not str(settings.log).startswith("/var/"):
        lines["maillog_file_prefixes"] = Line(str(settings.log.parent), "the log is there")
    return lines


def reports_kept(settings: Settings, uid: int, gid: int) -> dict[str, Line]:
    """Each report comes into the worker's folder."""
    box = settings.reports
    return {
        "internal_mail_filter_classes": Line("bounce", "header checks see reports"),
        "notify_classes": Line("2bounce", "Postfix reports failed mail without a sender too"),
        "2bounce_notice_recipient": Line(REPORTS, "these reports go to the worker"),
        "virtual_mailbox_domains": Line(REPORTS_DOMAIN, "reports are the only mail that stays"),
        "virtual_mailbox_base": Line(str(box.parent), "the folder above that of reports"),
        "virtual_mailbox_maps": Line(f"inline:{{{{{REPORTS} = {box.name}/}}}}",
                                     "a Maildir keeps each report"),
        "virtual_mailbox_limit": Line("0", "Postfix wants it above `message_size_limit`"),
        "virtual_uid_maps": Line(f"static:{uid}", "the worker reads them"),
        "virtual_gid_maps": Line(f"static:{gid}", "the worker reads them"),
    }


def way_out() -> dict[str, Line]:
    """The ways in which it delivers; a firm may set all of this otherwise."""
    return {
        "smtp_dns_reply_filter": Line("regexp:$config_directory/own_addresses",
                                      "no name in DNS leads to this machine itself"),
        "smtp_tls_security_level": Line("may", "TLS wherever the host offers it", True),
        "smtp_tls_loglevel": Line("1", "the log has a line for each TLS session", True),
        "smtp_tls_connection_reuse": Line("yes", "the connection cache keeps TLS sessions", True),
        "smtp_connect_timeout": Line("15s", "a dead host holds no process for long", True),
        "smtp_helo_timeout": Line("60s", "a host that does not greet holds no process for long",
                                  True),
        "smtp_destination_concurrency_limit": Line(
            "5", "one slow domain does not hold all processes", True),
    }


def delivering_services(settings: Settings) -> dict[str, Line]:
    at = named(settings.instance)
    lines = {f"{at}/inet": Line(service(at, "inet", "-", "smtpd"), "the worker hands over here")}
    for name in ("bounce", "defer", "trace"):
        words = service(name, "unix", "0", "bounce", "-o", "cleanup_service_name=reports")
        lines[f"{name}/unix"] = Line(words, "its reports pass by the service `reports`")
    lines["reports/unix"] = Line(
        "reports unix n - n - 0 cleanup -o header_checks=regexp:$config_directory/reports",
        "sends each report to the worker")
    lines["postlog/unix-dgram"] = Line("postlog unix-dgram n - n - 1 postlogd", "writes the log")
    lines["tlsproxy/unix"] = Line(service("tlsproxy", "unix", "0", "tlsproxy"),
                                  "holds the TLS sessions that are kept")
    return lines
