"""Tries the words of the compiled program.

Each run's exit status, standard output and standard error are compared whole with what is written here: words that `clap`
refuses, `--help` and `--version`, a batch and a server whose relay, directory, store or address is refused, a check of
each directory, and the words of an administrator, each check before those behind it, with sweeps of all customers and
what they use in stores that sqlite3 has changed. Where a run is refused nothing is replied and nothing is listened on,
and no store is made before the check of the store; one that is made is for its owner alone. What a server does that is
not refused is for tests/server/test_clients.py.
"""
import words_admin
import words_options
import words_starts
from serving import expect
from words_runs import Runs


def test_words(program, folder):
    """Each run's status, output and errors. Where a run is refused nothing is replied and nothing is
    listened on, and no store is made before the check of the store."""
    runs = Runs(program, folder)
    for part in (*words_options.PARTS, *words_starts.REFUSED[:1], words_admin.administrators_checks_come_in_order,
                 *words_starts.REFUSED[1:]):
        part(runs)
    left = sorted(it.name for it in folder.iterdir())
    expect(left == ["bad.csv", "customers.csv", "lines.csv", "refused.csv", "relay.key"], "a refused run left", left)
    for part in (*words_starts.SERVED, *words_admin.DONE):
        part(runs)
