"""A disk that is full, and freed again while the desk runs."""
from deploying import Desk, done
from load import kept
from serving import ACME, RELAY, expect
from small_disk import small_disk

ROWS = ["acme,acmekey000000001,1000,500000000,1000,100,14400"]
FILLER = 1_800_000
DISK = 503, {"error": 91, "name": "Disk"}


def until_full(desk, accepted, mark):
    """Submits until the disk is full; what was answered 200 is added."""
    recipients = [f"p{it}@far.example" for it in range(20)]
    for number in range(1000):
        body = {"spool": f"{mark}{number}", "sender": "ann@a.example", "recipients": recipients,
                "size": 9}
        found = desk.ask("POST", "/relay/submit/acme", RELAY, body)
        if found != (200, found[1]):
            expect(found == DISK, "on a full disk a submission got", found)
            return
        accepted.add(found[1]["id"])
    expect(False, "the disk is never full")


def still_answered(desk, accepted):
    """What a desk on a full disk answers: all that reads, and 91 or 200 to what changes."""
    expect(kept(desk.address, "acme") == accepted, "what was answered 200 is lost")
    for path in ("usage", "report", "lines", "notices", "message/0000000001"):
        done(desk.ask("GET", f"/v1/{path}", ACME), path)
    refused = [("DELETE", "/v1/message/0000000001"), ("POST", "/v1/delete-all"),
               ("POST", "/v1/requeue/0000000001")]
    for call in refused:
        found = desk.ask(*call, ACME)
        expect(found == DISK, "on a full disk", *call, "got", found)
    expect(kept(desk.address, "acme") == accepted, "what was refused was done")


def full_disk(folder, program):
    """The procedure."""
    place = folder / "small"
    with small_disk(place):
        filler = place / "filler"
        filler.write_bytes(bytes(FILLER))
        desk = Desk(folder, program, "full", ROWS)
        store = place / "full.db"
        desk.words = [str(store) if it == str(desk.store) else it for it in desk.words]
        accepted = set()
        with desk:
            until_full(desk, accepted, "a")
            still_answered(desk, accepted)
            desk.stop()
            desk.start()
            still_answered(desk, accepted)
            freed(desk, filler, accepted)
        with desk:
            expect(kept(desk.address, "acme") == accepted, "what was answered 200 is lost")


def freed(desk, filler, accepted):
    """The disk is freed while the desk runs: it goes on, without being started again."""
    process = desk.process.pid
    filler.unlink()
    done(desk.ask("DELETE", "/v1/message/0000000001", ACME), "a deletion on the freed disk")
    accepted.remove("0000000001")
    until_full(desk, accepted, "b")
    expect(process == desk.process.pid, "the desk was started again")
    done(desk.ask("GET", "/v1/usage", ACME), "the usage")
