"""What the worker keeps: the contents of messages, and the book of all that it knows of them."""
