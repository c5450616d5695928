"""Outcomes and replies as types: what the book of an earlier release has is read, and a reply that lacks a member is refused."""
import json

import pytest
from hq_relay.desk.replies import due_page_of, message_of, usage_of, verdict_of
from hq_relay.outcome import Outcome, Result, Unreached, book_json, desk_json, outcomes_of

# Rows of the table `handed`, as a book of release 1.0.0 has them.
ROWS = [
    ('{"recipient": "p@far.example", "result": "delivered", "status": "2.0.0", "text": "250 ok", "remote": "mx", "unreached": "", "by": "log"}',
     Outcome("p@far.example", Result.DELIVERED, "2.0.0", "250 ok", "mx", is_by_log=True)),
    ('{"recipient": "P@far.example", "result": "deferred", "status": "4.4.1", "text": "no", "remote": "", "unreached": "domain"}',
     Outcome("P@far.example", Result.DEFERRED, "4.4.1", "no", unreached=Unreached.DOMAIN)),
    ('{"recipient": "p@far.example", "result": "failed", "status": "5.1.1", "text": "no", "remote": "mx", "unreached": ""}',
     Outcome("p@far.example", Result.FAILED, "5.1.1", "no", "mx"))]


@pytest.mark.parametrize("row, outcome", ROWS)
def test_outcomes_of_the_book(row, outcome):
    """An outcome is read as it was written, and written as it was; the desk gets neither the host nor who reported it."""
    assert outcomes_of(f"[{row}]") == (outcome,) and book_json([outcome]) == f"[{row}]"
    members = json.loads(row)
    assert json.loads(desk_json([outcome])) == [{it: members[it] for it in ("recipient", "result", "status", "text")}]
    assert json.loads(book_json([outcome.for_desk()]))[0].keys() == {"recipient", "result", "status", "text", "remote", "unreached"}


def test_an_outcome_without_status():
    """The desk gets no member that nobody knows."""
    outcome = Outcome("p@far.example", Result.DELIVERED)
    assert desk_json([outcome]) == '[{"recipient": "p@far.example", "result": "delivered"}]'
    assert outcomes_of(desk_json([outcome])) == (outcome,)


@pytest.mark.parametrize("reader, reply, error", [
    (verdict_of, {}, KeyError), (verdict_of, {"verdict": 1}, TypeError), (verdict_of, {"verdict": "rejected"}, KeyError),
    (due_page_of, {"done": [{"customer": "acme"}], "stopped": None}, KeyError), (due_page_of, {"done": [1], "stopped": None}, TypeError),
    (due_page_of, {"done": []}, KeyError), (usage_of, {"customer": "acme", "messages": 1}, KeyError),
    (message_of, {"id": "1", "pending": None}, TypeError)])
def test_replies_of_no_desk(reader, reply, error):
    """A member that is missing, or of another type, raises an error that the rounds of the worker expect."""
    with pytest.raises(error):
        reader(reply)


def test_a_queued_verdict_without_id():
    """The desk's answer before the content has no queue ID: nobody may ask for it."""
    verdict = verdict_of({"verdict": "queued", "recipients": ["p@far.example"], "refused": [], "state": "incoming"})
    with pytest.raises(KeyError):
        print(verdict.queue_id)
