"""Customers that come and go while mail is delivered: mail under way goes on, even if it hangs."""
from dataclasses import replace

from hq_relay.delivery.destinations import Capacity
from hq_relay.delivery.service import Delivery
from hq_relay.settings import Settings


def without_customers(settings: Settings) -> Settings:
    """The settings without the options of customers."""
    return replace(settings, customers={}, desks={}, logins={}, domains={}, since={})


class CustomerChanges:
    """Has a delivery work by settings with other customers.

    Something may be under way still for a customer that left.
    """

    def __init__(self, delivery: Delivery):
        self.delivery = delivery
        self.leaving: set[str] = set()
        # how often the reports were looked at before the last change
        self.looks = 0

    def may(self, settings: Settings) -> bool:
        """Whether settings differ in customers alone, so that no new start is wanted."""
        now = self.delivery.settings
        is_same = without_customers(settings) == without_customers(now)
        have_moved = any(settings.desks.get(customer) != desk
                         for customer, desk in now.desks.items() if customer in settings.customers)
        return is_same and not have_moved and set(settings.of_desks()) == set(now.of_desks())

    def take_up(self, settings: Settings, capacity: Capacity) -> None:
        """Has the delivery work by these settings."""
        delivery = self.delivery
        delivery.destinations.capacity = capacity
        before = self.leaving.union(delivery.settings.customers)
        self.leaving = before.difference(settings.customers)
        delivery.take_up(settings)
        self.looks = delivery.looks

    def is_done(self) -> bool:
        """Whether nothing is done for a customer that left."""
        # (a look at reports may have begun before the change: so one whole look has to pass)
        has_looked = self.delivery.looks >= self.looks + 2
        if self.leaving and (not has_looked or self.delivery.works_for(self.leaving)):
            return False
        self.leaving = set()
        return True
