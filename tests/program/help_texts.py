"""What `--help` shows, of the program and of each of its words: tests/program/test_words.py compares it whole."""

HELP = b"""\
A customer desk of a mail relay: each customer sees and steers its own queued mail, and keeps its
own access tables, as postqueue(1), postsuper(1) and access(5) have them.

Without a command it replies to the lines of standard input for two built-in customers, acme and
birch, from an empty desk in memory.

Usage: hq [COMMAND]

Commands:
  serve    Serve the customers of a directory over HTTP/1.1
  batch    Reply to the lines of standard input, for the customers of a directory
  check    Check a relay's name, its key, its directory and named keys, as a start would
  queue    Print the queue report of a customer
  history  Print what became of a customer's recipients
  hold     Put the messages of a customer on hold that a pattern is for
  release  Release the messages of a customer that a pattern is for
  delete   Delete the messages of a customer that a pattern is for
  usage    Print what each customer uses
  import   Set lines of a customer's access tables by the rows of a file
  sweep    Give up messages that are too old, and warn of late ones
  migrate  Make a store of an earlier release one of this release

Options:
  -h, --help     Print help
  -V, --version  Print version

Examples:
  hq < lines
  hq serve --help
  hq serve --directory customers.csv --host relay.example --relay-key relaykey00000001
  hq batch --directory customers.csv --host relay.example --relay-key relaykey00000001 < lines
  hq check --directory customers.csv --host relay.example
  hq queue --directory customers.csv --store desk.db --customer acme
  hq usage --directory customers.csv --store desk.db

The exit status is 0 when done; 1 for a refusal or a fault, which is told in one line on standard
error, as `hq: 53 BadDirectory row 3`; 2 for words that are not taken.
"""
SERVE_HELP = b"""\
Serve the customers of a directory over HTTP/1.1

Usage: hq serve [OPTIONS] --directory <FILE> --host <HOST>

Options:
      --directory <FILE>           The customers: a CSV file of 1 to 1,000 rows under the header
                                   name,key,messages,bytes,lines,notices,delay; with ,history
                                   behind it where histories are kept. No default.
                                   Example: --directory customers.csv
      --keys <FILE>                Named keys, which customers have beside their own: a CSV file
                                   of 1 to 1,000 rows under the header customer,name,key,right.
                                   A right is all, or read: such a key changes nothing. By
                                   default there are none. Example: --keys keys.csv
      --host <HOST>                The name of the relay, a domain. No default.
                                   Example: --host relay.example
      --relay-key <KEY>            The key of the relay's workers: 16 to 64 letters and digits,
                                   and no customer's key. No default: this one is wanted, or
                                   --relay-key-file. Example: --relay-key relaykey00000001
      --relay-key-file <FILE>      The file of that key, which is its one line. Other users of
                                   the machine do not see it there.
                                   Example: --relay-key-file relay.key
      --store <FILE>               The file that keeps what is done, a database of SQLite, made
                                   where it is missing. By default the desk stands in memory,
                                   and is empty at first. Example: --store desk.db
      --listen <ADDRESS>           The address to listen on: an IP address and a port, with port 0
                                   a free one; or unix: and a path. Example: --listen unix:desk.sock [default: 127.0.0.1:8025]
      --count <N>                  How many connections are served before it ends, 1 to 1000000.
                                   Example: --count 100 [default: 1000000]
      --idle-timeout <SECONDS>     How long a client may take from one byte to the next,
                                   in seconds, 1 to 3600. Example: --idle-timeout 10 [default: 30]
      --request-timeout <SECONDS>  How long a client may take to send its whole request,
                                   in seconds, 1 to 3600; for the response it is as long again.
                                   Example: --request-timeout 60 [default: 30]
      --log <FILE>                 The file to which a line of JSON is appended for each exchange
                                   that was answered; - is standard error. By default none is.
                                   Example: --log desk.log
  -h, --help                       Print help

When it listens it prints the address that was bound, `listening on 127.0.0.1:8025`. It serves many
connections at once, each with one request, which is answered and closed. One that is reset or too
slow before its whole request has come is told as `hq: input` on standard error, and one that is so
before its whole response is written as `hq: output`; the others are served.

Example of a directory, the file customers.csv:
  name,key,messages,bytes,lines,notices,delay
  acme,acmekey000000001,1000,500000000,1000,100,14400

Example of a request:
  curl -H 'X-Desk-Key: acmekey000000001' --unix-socket desk.sock http://desk/v1/messages

Examples:
  hq serve --directory customers.csv --host relay.example --relay-key relaykey00000001
  hq serve --directory customers.csv --host relay.example --relay-key-file relay.key \\
    --store desk.db --listen unix:desk.sock --count 100 --log desk.log
"""
BATCH_HELP = b"""\
Reply to the lines of standard input, for the customers of a directory

Usage: hq batch [OPTIONS] --directory <FILE> --host <HOST>

Options:
      --directory <FILE>       The customers: a CSV file of 1 to 1,000 rows under the header
                               name,key,messages,bytes,lines,notices,delay; with ,history
                               behind it where histories are kept. No default.
                               Example: --directory customers.csv
      --keys <FILE>            Named keys, which customers have beside their own: a CSV file
                               of 1 to 1,000 rows under the header customer,name,key,right.
                               A right is all, or read: such a key changes nothing. By
                               default there are none. Example: --keys keys.csv
      --host <HOST>            The name of the relay, a domain. No default.
                               Example: --host relay.example
      --relay-key <KEY>        The key of the relay's workers: 16 to 64 letters and digits,
                               and no customer's key. No default: this one is wanted, or
                               --relay-key-file. Example: --relay-key relaykey00000001
      --relay-key-file <FILE>  The file of that key, which is its one line. Other users of
                               the machine do not see it there.
                               Example: --relay-key-file relay.key
      --store <FILE>           The file that keeps what is done, a database of SQLite, made
                               where it is missing. By default the desk stands in memory,
                               and is empty at first. Example: --store desk.db
      --log <FILE>             The file to which a line of JSON is appended for each exchange
                               that was answered; - is standard error. By default none is.
                               Example: --log desk.log
  -h, --help                   Print help

A line is `AT METHOD PATH KEY BODY`: seconds since 1970, an HTTP method, a path, a key or `-`, and a
body that may be missing. Each line gets one reply line on standard output, at once.

Example of a directory, the file customers.csv:
  name,key,messages,bytes,lines,notices,delay
  acme,acmekey000000001,1000,500000000,1000,100,14400

Example of a line:
  1767225600 GET /v1/messages acmekey000000001

Examples:
  hq batch --directory customers.csv --host relay.example --relay-key relaykey00000001 < lines
  hq batch --directory customers.csv --host relay.example --relay-key-file relay.key \\
    --store desk.db < lines
"""
CHECK_HELP = b"""\
Check a relay's name, its key, its directory and named keys, as a start would

Usage: hq check [OPTIONS] --directory <FILE> --host <HOST>

Options:
      --directory <FILE>       The customers: a CSV file of 1 to 1,000 rows under the header
                               name,key,messages,bytes,lines,notices,delay; with ,history
                               behind it where histories are kept. No default.
                               Example: --directory customers.csv
      --keys <FILE>            Named keys, which customers have beside their own: a CSV file
                               of 1 to 1,000 rows under the header customer,name,key,right.
                               A right is all, or read: such a key changes nothing. By
                               default there are none. Example: --keys keys.csv
      --host <HOST>            The name of the relay, a domain. No default.
                               Example: --host relay.example
      --relay-key <KEY>        The key of the relay's workers: 16 to 64 letters and digits,
                               and no customer's key. By default none is checked.
                               Example: --relay-key relaykey00000001
      --relay-key-file <FILE>  The file of that key, which is its one line. Other users of
                               the machine do not see it there.
                               Example: --relay-key-file relay.key
  -h, --help                   Print help

It reads what `serve` would read before it opens its store, and touches nothing else. Where all is
good it prints how many customers there are: `3 customers`. Else it tells what a start would tell,
as `hq: 53 BadDirectory row 3`, and, where a row of the directory is not good, the column and why:
`hq: row 3, column bytes: no number from 1 to 2147483647000`. Of the file of `--keys` it tells
`hq: keys row 2, column customer: not in the directory`. No key is printed. Without a relay's key
all else is checked.

Examples:
  hq check --directory customers.csv --host relay.example
  hq check --directory customers.csv --host relay.example --relay-key-file relay.key
"""
QUEUE_HELP = b"""\
Print the queue report of a customer

Usage: hq queue [OPTIONS] --directory <FILE> --store <FILE> --customer <NAME>

Options:
      --directory <FILE>     The customers: a CSV file of 1 to 1,000 rows under the header
                             name,key,messages,bytes,lines,notices,delay; with ,history
                             behind it where histories are kept. No default.
                             Example: --directory customers.csv
      --store <FILE>         The file that keeps what is done, a database of SQLite, made
                             where it is missing. No default. Example: --store desk.db
      --customer <NAME>      The customer's name, as the directory has it. No default.
                             Example: --customer acme
      --sender <PATTERN>     A pattern of the sender: it tells of what matches alone.
                             Example: --sender bob@acme.example
      --recipient <PATTERN>  A pattern of the recipient: it tells of what matches alone.
                             Example: --recipient far.example
  -h, --help                 Print help

The report lists the customer's messages as postqueue(1) does, held ones with `!`, or tells that its
queue is empty. With a pattern it lists those that the pattern is for, by the keys of their sender
or of a pending recipient.

Examples:
  hq queue --directory customers.csv --store desk.db --customer acme
  hq queue --directory customers.csv --store desk.db --customer acme --recipient far.example
"""
HISTORY_HELP = b"""\
Print what became of a customer's recipients

Usage: hq history [OPTIONS] --directory <FILE> --store <FILE> --customer <NAME>

Options:
      --directory <FILE>     The customers: a CSV file of 1 to 1,000 rows under the header
                             name,key,messages,bytes,lines,notices,delay; with ,history
                             behind it where histories are kept. No default.
                             Example: --directory customers.csv
      --store <FILE>         The file that keeps what is done, a database of SQLite, made
                             where it is missing. No default. Example: --store desk.db
      --customer <NAME>      The customer's name, as the directory has it. No default.
                             Example: --customer acme
      --sender <PATTERN>     A pattern of the sender: it tells of what matches alone.
                             Example: --sender bob@acme.example
      --recipient <PATTERN>  A pattern of the recipient: it tells of what matches alone.
                             Example: --recipient far.example
  -h, --help                 Print help

Each of the newest 100 recipients that left the queue has a line, the newest first: its number, when
it left, the queue ID of its message, what became of it, its sender or `<>`, itself, and a status
and a text: those of the report that it left by, else those that were told of it last. With a
pattern these are found among the newest 1,000:

  7 1767225700 0000000001 delivered bob@acme.example eve@far.example 2.0.0 250 2.0.0 Ok

A last line `more before 7` tells that there are more; the relay's call `/relay/history` goes on
from there. Where the row has no history, or a smaller one than before, what was kept goes as soon
as the next recipient leaves.

Examples:
  hq history --directory customers.csv --store desk.db --customer acme
  hq history --directory customers.csv --store desk.db --customer acme \\
    --recipient far.example
"""
HOLD_HELP = b"""\
Put the messages of a customer on hold that a pattern is for

Usage: hq hold [OPTIONS] --directory <FILE> --store <FILE> --customer <NAME> --at <AT>

Options:
      --directory <FILE>     The customers: a CSV file of 1 to 1,000 rows under the header
                             name,key,messages,bytes,lines,notices,delay; with ,history
                             behind it where histories are kept. No default.
                             Example: --directory customers.csv
      --store <FILE>         The file that keeps what is done, a database of SQLite, made
                             where it is missing. No default. Example: --store desk.db
      --customer <NAME>      The customer's name, as the directory has it. No default.
                             Example: --customer acme
      --sender <PATTERN>     A pattern that messages are matched by, of their sender.
                             Example: --sender bob@acme.example
      --recipient <PATTERN>  A pattern that messages are matched by, of a pending
                             recipient. Example: --recipient far.example
      --at <AT>              The moment at which it is done, in seconds since 1970,
                             0 to 4102444799. No default. Example: --at 1767657600
  -h, --help                 Print help

A pattern is one of the access tables. It is for a message whose sender is looked up by it, or one
of whose pending recipients is. It prints how many messages were changed: `changed 3`.

Examples:
  hq hold --directory customers.csv --store desk.db --customer acme \\
    --sender bob@acme.example --at 1767225700
  hq release --directory customers.csv --store desk.db --customer acme \\
    --recipient far.example --at 1767225700
  hq delete --directory customers.csv --store desk.db --customer acme \\
    --sender bob@acme.example --at 1767225700
"""
USAGE_HELP = b"""\
Print what each customer uses

Usage: hq usage --directory <FILE> --store <FILE>

Options:
      --directory <FILE>  The customers: a CSV file of 1 to 1,000 rows under the header
                          name,key,messages,bytes,lines,notices,delay; with ,history
                          behind it where histories are kept. No default.
                          Example: --directory customers.csv
      --store <FILE>      The file that keeps what is done, a database of SQLite, made
                          where it is missing. No default. Example: --store desk.db
  -h, --help              Print help

Each customer has a line, in the order of the directory: how many messages are queued, their bytes
together, how many lines its access tables have, and how many recipients were accepted, are pending,
and were delivered, failed, deleted with their message and given up for age:

  acme: messages 1, bytes 900, lines 0, accepted 3, pending 1, delivered 1, failed 1, deleted 0, \
expired 0

It reads only. A fault ends it, and the exit status is 1.

Example:
  hq usage --directory customers.csv --store desk.db
"""
IMPORT_HELP = b"""\
Set lines of a customer's access tables by the rows of a file

Usage: hq import --directory <FILE> --store <FILE> --customer <NAME> --label <LABEL> --file <FILE>

Options:
      --directory <FILE>  The customers: a CSV file of 1 to 1,000 rows under the header
                          name,key,messages,bytes,lines,notices,delay; with ,history
                          behind it where histories are kept. No default.
                          Example: --directory customers.csv
      --store <FILE>      The file that keeps what is done, a database of SQLite, made
                          where it is missing. No default. Example: --store desk.db
      --customer <NAME>   The customer's name, as the directory has it. No default.
                          Example: --customer acme
      --label <LABEL>     What the import goes by: 1 to 64 letters, digits, dots,
                          hyphens and underscores. No default. Example: --label january
      --file <FILE>       The lines: a CSV file of at most 1,000 rows under the header
                          class,pattern,action. No default. Example: --file lines.csv
  -h, --help              Print help

Either all rows are set, or none is and the first bad row is told. It prints how many lines were
added, changed, and there already: `added 3, changed 0, same 0`. The same file under the same label
is told the same again, and sets nothing.

Example of a file, lines.csv:
  class,pattern,action
  sender,spam.example,REJECT
  recipient,far.example,HOLD

Example:
  hq import --directory customers.csv --store desk.db --customer acme --label january \\
    --file lines.csv
"""
SWEEP_HELP = b"""\
Give up messages that are too old, and warn of late ones

Usage: hq sweep [OPTIONS] --directory <FILE> --host <HOST> --store <FILE> --at <AT>

Options:
      --directory <FILE>  The customers: a CSV file of 1 to 1,000 rows under the header
                          name,key,messages,bytes,lines,notices,delay; with ,history
                          behind it where histories are kept. No default.
                          Example: --directory customers.csv
      --host <HOST>       The name of the relay, a domain. No default.
                          Example: --host relay.example
      --store <FILE>      The file that keeps what is done, a database of SQLite, made
                          where it is missing. No default. Example: --store desk.db
      --customer <NAME>   The customer's name, as the directory has it. By default all
                          customers are swept. Example: --customer acme
      --at <AT>           The moment at which it is done, in seconds since 1970,
                          0 to 4102444799. No default. Example: --at 1767657600
  -h, --help              Print help

It prints how many messages were given up, how many became warned, and how many notices were made:
`expired 1, warned 0, notices 1`.

Without --customer all customers are swept, in the order of the directory, each by itself, and each
has a line: `acme: expired 1, warned 0, notices 1`. One that is refused is told on standard error,
as `hq: 44 NoticesSpent customer acme`, and the next one is swept; a fault ends it. The exit status
is 1 where either was met.

Examples:
  hq sweep --directory customers.csv --host relay.example --store desk.db --at 1767657600
  hq sweep --directory customers.csv --host relay.example --store desk.db --customer acme \\
    --at 1767657600
"""
MIGRATE_HELP = b"""\
Make a store of an earlier release one of this release

Usage: hq migrate --store <FILE>

Options:
      --store <FILE>  The file that keeps what is done, a database of SQLite.
                      No default. Example: --store desk.db
  -h, --help          Print help

The other commands refuse a store of version 1 or 2 as `hq: 92 BadSchema`. This one makes it one of
version 3, whose histories are empty at first. Version 1 keeps no reasons of messages on hold: each
of them gets `held before version 2`, and `migrated 1 on hold` tells how many there are. Of a store
of version 2 or 3 it prints `migrated 0 on hold`, and one of version 3 stays as it is. Any other
file is refused as `hq: 92 BadSchema` and stays as it is.

It is done whole or not at all. Stop the desk and copy the file before: the copy is the way back.

Example:
  hq migrate --store desk.db
"""
# Those of the other two differ in their first lines.
HOLDS = b"Put the messages of a customer on hold that a pattern is for\n\nUsage: hq hold "
RELEASE_HELP = HOLD_HELP.replace(HOLDS, b"Release the messages of a customer that a pattern is for\n\nUsage: hq release ")
DELETE_HELP = HOLD_HELP.replace(HOLDS, b"Delete the messages of a customer that a pattern is for\n\nUsage: hq delete ")
