# What the worker uses of aiosmtpd, with its types: the package's own say less, and not the same in each Debian.
