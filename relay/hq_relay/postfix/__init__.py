"""Both instances of Postfix: their configuration, their queue, their log and their reports."""
