"""The relay worker: it takes mail from Postfix, submits it to the desk, and hands over what is due.

The executables `relay/worker`, `relay/metrics` and `relay/take-back` start it. `commands` has the
commands of the worker, and each folder one part of it: `intake`, `storage`, `desk`, `delivery`,
`notices`, `postfix` and `customers`. docs/RELAY.md explains the worker, and
docs/ARCHITECTURE.md lists the modules.
"""
