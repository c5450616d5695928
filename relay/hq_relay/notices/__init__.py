"""Notices of the desk, and of deliveries, as mail."""
