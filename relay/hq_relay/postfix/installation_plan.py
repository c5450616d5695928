"""Changes that `install` makes to an instance.

A change is written so that a run may be cut anywhere.
"""
import socket
import time
from collections.abc import Mapping
from dataclasses import dataclass, field
from pathlib import Path

from hq_relay.postfix import instance_unit
from hq_relay.postfix.configuration import (ConfigurationFiles, ConfigurationPart, MasterServices,
                                            NotInstalled, Record, run)
from hq_relay.postfix.lines import Line
from hq_relay.settings_values import address

# The end of the name of a service that listens on the network.
LISTENER = "/inet"
# How many seconds Postfix may take until it listens.
SECONDS = 10


@dataclass(frozen=True, slots=True)
class Change:
    """A name of a part that gets another value, or none."""

    name: str
    was: str | None
    wanted: str | None


@dataclass
class Target:
    """A part with the lines that are wanted there."""

    part: ConfigurationPart
    wanted: dict[str, Line]

    def changes(self, record: Record, present: Mapping[str, str]) -> list[Change]:
        """The lines that are not as they are wanted, or not wanted any more.

        (A line of `install` that somebody has changed, and that is not wanted any more, is left
        alone.)
        """
        changes = [Change(name, present.get(name), line.value)
                   for name, line in self.wanted.items() if present.get(name) != line.value]
        changes = [change for change in changes
                   if not (self.is_foreign(record, change)
                           and self.wanted[change.name].is_proposal)]
        return changes + [Change(name, present[name], None)
                          for name, values in record.wrote.get(self.part.name, {}).items()
                          if name not in self.wanted and present.get(name) in values]

    def is_foreign(self, record: Record, change: Change) -> bool:
        """Whether the present value is somebody else's."""
        return change.was is not None and change.was not in record.own(self.part.name, change.name)

    def line_of(self, change: Change) -> str:
        """A change as `install` prints it."""
        wanted, was = self.part.shown(change.wanted), self.part.shown(change.was)
        return f"{self.part.name}: {change.name} = {wanted}, was {was}"

    def fault_of(self, change: Change) -> str:
        """A change that is refused, as `install` prints it."""
        wanted, was = self.part.shown(change.wanted), self.part.shown(change.was)
        return (f"{self.part.name}: {change.name} = {was}, which install did not write;"
                f" it would write {wanted}")

    def apply(self, changes: list[Change]) -> None:
        written = {change.name: change.wanted for change in changes if change.wanted is not None}
        dropped = [change.name for change in changes if change.wanted is None]
        if written:
            self.part.write(written)
        if dropped:
            self.part.drop(dropped)


@dataclass
class InstancePlan:
    """One instance: its folder, its targets, and what `install` wrote there.

    Files have to be there before the lines that name them, and services before their parameters.
    """

    folder: Path
    targets: list[Target]
    record: Record
    is_there: bool = True
    # The unit that is to start it; nothing where Postfix's own service does.
    unit: str = ""
    changes: dict[int, list[Change]] = field(default_factory=dict)

    def compare(self) -> None:
        """Plans the changes."""
        for number, target in enumerate(self.targets):
            is_read = self.is_there or isinstance(target.part, ConfigurationFiles)
            present = target.part.present() if is_read else {}
            self.changes[number] = target.changes(self.record, present)

    def planned(self) -> list[tuple[Target, list[Change]]]:
        return [(self.targets[number], changes) for number, changes in self.changes.items()]

    def faults(self) -> list[str]:
        """The changes that would replace somebody else's values."""
        return [target.fault_of(change) for target, changes in self.planned() for change in changes
                if target.is_foreign(self.record, change)]

    def new_listeners(self) -> list[Change]:
        """The services that begin to listen on the network."""
        return [change for target, changes in self.planned() for change in changes
                if isinstance(target.part, MasterServices) and change.name.endswith(LISTENER)
                and change.was is None]

    def lines(self) -> list[str]:
        return [target.line_of(change) for target, changes in self.planned() for change in changes]

    def lacks_unit(self) -> bool:
        return bool(self.unit) and not instance_unit.is_in_place(self.unit)

    def apply(self) -> None:
        """Writes the changes: first into the record, where the old values stay meanwhile."""
        if not self.lines():
            return
        self.record.is_unread = True
        for target, changes in self.planned():
            wrote = self.record.wrote.setdefault(target.part.name, {})
            for change in changes:
                if change.wanted is not None:
                    before = [value for value in wrote.get(change.name, [])
                              if value != change.wanted]
                    wrote[change.name] = [*before, change.wanted]
        self.record.save(self.folder)
        for target, changes in self.planned():
            target.apply(changes)
        for target, changes in self.planned():
            self.note(target.part.name, changes)
        self.record.save(self.folder)

    def note(self, part: str, changes: list[Change]) -> None:
        """The record has the values of now alone."""
        wrote = self.record.wrote[part]
        for change in changes:
            if change.wanted is None:
                del wrote[change.name]
            else:
                wrote[change.name] = [change.wanted]
                self.record.made.get(part, {}).pop(change.name, None)

    def wait_for_listeners(self) -> None:
        """Waits until Postfix listens. If it cannot, it ends by itself, and only logs that."""
        names = [name for target in self.targets if isinstance(target.part, MasterServices)
                 for name in target.wanted if name.endswith(LISTENER)]
        end = time.monotonic() + SECONDS
        while names:
            try:
                socket.create_connection(address(names[0][:-len(LISTENER)]), SECONDS).close()
                names.pop(0)
            except OSError as error:
                if time.monotonic() > end:
                    raise NotInstalled(f"{self.folder}: nobody listens at {names[0]}: "
                                       f"{error.strerror}; see the log of Postfix") from None
                time.sleep(0.1)

    def is_running(self) -> bool:
        try:
            run("postfix", "-c", self.folder, "status")
        except NotInstalled:
            return False
        return True

    def runs(self) -> None:
        """Has Postfix read the changes; starts it if it does not run."""
        is_running = self.is_running()
        if self.unit and (not is_running or self.lacks_unit()):
            instance_unit.put_in_place(self.unit, self.folder)
            print(f"{self.unit}: enabled and started")
        elif not is_running:
            run("postfix", "-c", self.folder, "start")
            print(f"{self.folder}: started")
        elif self.record.is_unread:
            run("postfix", "-c", self.folder, "reload")
            print(f"{self.folder}: reloaded")
        self.wait_for_listeners()
        if self.record.is_unread:
            self.record.is_unread = False
            self.record.save(self.folder)
