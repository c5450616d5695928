import asyncio
from collections.abc import Awaitable, Callable, MutableMapping
from typing import TypeVar

Command = TypeVar("Command", bound=Callable[..., Awaitable[None]])

def syntax(text: str, extended: str | None = None) -> Callable[[Command], Command]: ...

class Session:
    host_name: str | None

class Envelope:
    mail_from: str | None
    mail_options: list[str]
    smtp_utf8: bool
    rcpt_tos: list[str]
    rcpt_options: list[str]

class SMTP(asyncio.StreamReaderProtocol):
    line_length_limit: int
    command_size_limit: int
    command_size_limits: MutableMapping[str, int]
    loop: asyncio.AbstractEventLoop
    session: Session
    envelope: Envelope
    transport: asyncio.WriteTransport
    _reader: asyncio.StreamReader
    def __init__(
        self,
        handler: object,
        *,
        hostname: str,
        ident: str,
        timeout: float,
        data_size_limit: int,
        enable_SMTPUTF8: bool,
        loop: asyncio.AbstractEventLoop,
    ) -> None: ...
    def _set_rset_state(self) -> None: ...
    def _getaddr(self, arg: str) -> tuple[str | None, str | None]: ...
    async def push(self, status: str) -> None: ...
    async def smtp_MAIL(self, arg: str | None) -> None: ...
    async def smtp_RCPT(self, arg: str | None) -> None: ...
    async def smtp_DATA(self, arg: str | None) -> None: ...
