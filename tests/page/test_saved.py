"""Of tests/page: the queue as a file: all that the search and the filters leave, in their order."""
import csv
import io

from paper import message
from serving import expect
from test_rules import KEEPS, KEPT

COLUMNS = ["arrival", "id", "recipient", "sender", "size", "state", "reason", "status", "text"]


def saved(visit):
    """Presses for the file, and answers its rows."""
    visit.browser.run(KEEPS)
    visit.browser.run("window.kept = null")
    visit.browser.click("#queue-csv")
    visit.browser.until(lambda: visit.browser.run("window.kept instanceof Blob"), "nothing is saved")
    return [*csv.DictReader(io.StringIO(visit.browser.run(KEPT), newline=""))]


def test_the_filtered_queue_is_saved(visit, paper):
    """A row for each recipient that waits, also of messages that are not drawn; no formula of strangers; and nothing of an empty list."""
    browser = visit.browser
    paper.queue([message(it, "ann@a.example", [(f"r{it}@far.example", "4.2.0", "busy")], arrival=1767225600 + it) for it in range(1, 151)]
                + [message(151, "=cmd@a.example", [("x@near.example", "", ""), ("y@near.example", "4.2.2", "=1")], state="hold", reason="+look",
                           arrival=1767225600, size=77)])
    visit.on_paper("queue")
    rows = saved(visit)
    expect([*rows[0]] == COLUMNS and len(rows) == 152, "the file has", len(rows), "rows, first", rows[0])
    browser.choose("#order", "oldest")
    # (of no pattern the desk is asked, so that what is pressed stays in its place)
    browser.write("#search", "@far")
    visit.says("#shown", "150 of 151 messages")
    expect([it["id"] for it in saved(visit)] == [f"{it:010X}" for it in range(1, 151)], "another order or other rows are saved")
    browser.choose("#only-state", "hold")
    browser.write("#search", "near")
    visit.says("#shown", "1 of 151 messages")
    wanted = {"arrival": "1767225600", "id": f"{151:010X}", "sender": "'=cmd@a.example", "size": "77", "state": "hold", "reason": "'+look"}
    found = saved(visit)
    expect([(it["recipient"], it["status"], it["text"]) for it in found] == [("x@near.example", "", ""), ("y@near.example", "4.2.2", "'=1")]
           and all({name: it[name] for name in wanted} == wanted for it in found), "saved is", found)
    browser.write("#search", "nobody")
    visit.says("#shown", "0 of 151 messages")
    expect(browser.run("document.querySelector('#queue-csv').hidden"), "an empty list can be saved")
    visit.picture("queue-saved")
