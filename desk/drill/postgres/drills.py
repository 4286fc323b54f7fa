"""The drills. Each is given a setting and takes its own servers and site; it raises Loss where a desk did what it must not."""

import signal
import statistics
import struct
import time

from clients import finish, talk
from judge import Loss
from reader import REQUEST, Call, crc32c
from server import Server, wait_until
from stand import LATE, Stand, ended, follows, stopped
from traffic import Line, hexed


def times(seconds):
    """Median and longest, in words."""
    return f"median {statistics.median(seconds) * 1e3:.0f} ms, longest {max(seconds) * 1e3:.0f} ms" if seconds else "none"


def new_server(setting, name="primary"):
    server = Server(setting.work, name)
    server.make()
    return server


def junk_rows(server):
    """Rows of other sites, which are nothing to ours."""
    server.sql("INSERT INTO desk_journal SELECT decode(md5(i::text), 'hex'), i, decode(md5(i::text), 'hex') FROM generate_series(0, 50) i")


def leader(setting):
    """The leader is killed, or told to end, while clients write: the follower goes on."""
    stand = Stand(setting, new_server(setting))
    leads, other = stand.pair()
    junk_rows(stand.server)
    waits, kills = [], 0
    for turn in range(setting.rounds):
        clients = stand.work(leads, stand.random.uniform(0.02, 0.4))
        start, kill = time.monotonic(), turn % 4 < 3
        if kill:
            leads.kill()
        else:
            ended(leads, 0, signal.SIGTERM)
        other.started()
        if kill:
            waits.append(time.monotonic() - start)
            kills += 1
        stopped(clients)
        stand.hang_up(clients)
        stand.judged()
        leads, other = other, follows(stand.desk(0 if leads.folder == stand.folders[0] else 1))
    stand.finished(leads, other)
    return f"{kills} leaders killed, {setting.rounds - kills} ended, {stand.answered} answers; takeover {times(waits)}"


def terminate(server, pid):
    server.sql(f"SELECT pg_terminate_backend({pid})")


def session(setting):
    """The session that has the lock is ended by the server: the desk stores and answers no more, and ends with 5.

    It is busy then, or idle, or frozen: it wakes when another has led for a while, and clients have sent it lines."""
    stand = Stand(setting, new_server(setting))
    leads, other = stand.pair()
    waits = []
    for turn in range(setting.rounds):
        clients = stand.work(leads, stand.random.uniform(0.02, 0.2))
        way = ("busy", "idle", "frozen")[turn % 3]
        if way == "idle":
            pause(clients)
        pid, start = stand.server.leader(stand.number), time.monotonic()
        if way == "frozen":
            leads.signal(signal.SIGSTOP)
        terminate(stand.server, pid)
        if way != "busy":
            other.started()
            waits.append(time.monotonic() - start)
        if way == "idle":
            asked_in_vain(clients)
        elif way == "frozen":
            talk(clients, 0.05)
            leads.signal(signal.SIGCONT)
        talk(clients, 0.2)
        stopped(clients)
        ended(leads, 5)
        other.started()
        stand.hang_up(clients)
        stand.judged()
        leads, other = other, follows(stand.desk(0 if leads.folder == stand.folders[0] else 1))
    stand.finished(leads, other)
    return f"{setting.rounds} sessions ended, {stand.answered} answers; another leads after {times(waits)} where they were not busy"


def pause(clients):
    """All lines are answered, and no new ones sent."""
    for client in clients:
        client.traffic = None
    finish(clients)


def asked_in_vain(clients):
    """A question changes nothing and is not stored. But who is asked no longer leads: what it told would be of an old book."""
    told = [client.told for client in clients]
    for client in clients:
        client.send("s")
    talk(clients, 0.1)
    if told != [client.told for client in clients]:
        raise Loss("a desk without its session told what stands in its book")


def crash(setting):
    """The server dies at once, and comes again: leader and follower end with 5, and start when it is back."""
    server = new_server(setting)
    stand = Stand(setting, server)
    waits = []
    for turn in range(setting.rounds):
        leads, other = stand.pair()
        clients = stand.work(leads, stand.random.uniform(0.02, 0.3))
        start = time.monotonic()
        server.processes(signal.SIGKILL) if turn % 2 else server.process.send_signal(signal.SIGQUIT)
        server.process.wait()
        talk(clients, 0.1)
        stopped(clients)
        ended(leads, 5)
        ended(other, 5)
        ended(stand.desk(0), 5)
        server.start()
        again = stand.desk(turn % 2).started()
        waits.append(time.monotonic() - start)
        stand.hang_up(clients)
        stand.judged()
        ended(again, 0, signal.SIGTERM)
    stand.finished(stand.desk(0).started())
    return f"{setting.rounds} servers crashed and restarted, {stand.answered} answers; served again after {times(waits)}"


def standby(setting):
    """The machine of the primary is destroyed while clients write; the synchronous standby is promoted, and has all answered changes.

    In every second round a desk follows on the standby already, and leads there as soon as it is promoted."""
    stand = Stand(setting, new_server(setting))
    ended(stand.desk(0).started(), 0, signal.SIGTERM)
    waits, ready, promotions = [], [], []
    for turn in range(setting.rounds):
        primary, second = stand.server, stand.server.standby(f"standby{turn}")
        either = primary.connection(second)
        leads = stand.desk(turn % 2, either).started()
        other = follows(stand.desk(1 - turn % 2, second.connection())) if turn % 2 else None
        clients = stand.work(leads, stand.random.uniform(0.05, 0.3))
        start = time.monotonic()
        primary.destroy()
        talk(clients, 0.1)
        stopped(clients)
        ended(leads, 5)
        before = time.monotonic()
        second.promote()
        promotions.append(time.monotonic() - before)
        other = other or stand.desk(1 - turn % 2, either)
        other.started()
        (ready if turn % 2 else waits).append(time.monotonic() - start)
        stand.server = second
        stand.hang_up(clients)
        stand.judged()
        ended(other, 0, signal.SIGTERM)
        primary.bury()
    stand.finished(stand.desk(0).started())
    return (f"{setting.rounds} primaries destroyed, {stand.answered} answers; served again after {times(waits)}, "
            f"with a desk that followed on the standby {times(ready)}; of it the promotion {times(promotions)}")


def nothing_told(clients, stand, seconds):
    """Each client sends a new order, which must be stored; whether nothing of it is answered in this time."""
    for client, traffic in zip(clients, stand.traffic):
        client.send(hexed((*traffic.request(), traffic.next_order)))
        traffic.next_order += 1
    told = sum(client.told for client in clients)
    talk(clients, seconds)
    return sum(client.told for client in clients) == told


def waiting_pair(setting, name):
    """A primary whose standby is down: the leader waits within a commit, another desk follows."""
    stand = Stand(setting, new_server(setting, f"{name}-primary"), name)
    stand.server.sql("ALTER ROLE desk SET client_min_messages = error")
    stand.server.sql("ALTER ROLE desk SET statement_timeout = 100")
    second = stand.server.standby(f"{name}-standby")
    leads, other = stand.pair()
    clients = stand.work(leads, 0.1)
    pause(clients)
    second.stop()
    if not nothing_told(clients, stand, 0.3):
        raise Loss("a change was answered while the standby was away")
    return stand, second, leads, other, clients


def promoted(stand, second, which):
    """The primary is gone; the standby, which was down, is promoted, and a desk serves what it has."""
    stand.server.destroy()
    second.start()
    second.promote()
    stand.server = second
    desk = stand.desk(which).started()
    stand.judged()
    stand.finished(desk)


def cancelled(setting):
    """The wait for the standby is cancelled: the server says done, with a warning, and the desk must not believe it."""
    stand, second, leads, other, clients = waiting_pair(setting, "cancelled")
    stand.server.sql(f"SELECT pg_cancel_backend({stand.server.leader(stand.number)})")
    stopped(clients)
    ended(leads, 5)
    # The follower has read the row, and waits for the standby before it serves: that wait is cancelled too.
    wait_until("the follower's lock", lambda: stand.server.leader(stand.number), LATE)
    time.sleep(0.1)
    stand.server.sql(f"SELECT pg_cancel_backend({stand.server.leader(stand.number)})")
    ended(other, 5)
    stand.hang_up(clients)
    # A desk that waits for a standby which does not come can be told to end.
    waits = stand.desk(0)
    wait_until("the lock", lambda: stand.server.leader(stand.number), LATE)
    ended(waits, 5, signal.SIGTERM)
    promoted(stand, second, 0)
    return f"two waits cancelled, two desks ended, one told to end while it waited, {stand.answered} answers"


def repeated(stand, desk):
    """Clients send their unanswered orders again, and nothing else; the desk is killed behind the answers."""
    clients = stand.connect(desk)
    for client in clients:
        client.send(*client.first)
        client.traffic = None
    talk(clients, 0.2)
    desk.kill()
    stopped(clients)
    stand.hang_up(clients)


def unsettled(setting):
    """The leader's session ends while it waits for the standby: its row is on one machine. Who leads next must not serve it so."""
    stand, second, leads, other, clients = waiting_pair(setting, "unsettled")
    terminate(stand.server, stand.server.leader(stand.number))
    stopped(clients)
    ended(leads, 5)
    stand.hang_up(clients)
    wait_until("the follower's lock", lambda: stand.server.leader(stand.number), LATE)
    time.sleep(0.3)
    if "listening" in other.text():
        repeated(stand, other)
        promoted(stand, second, 0)
        raise Loss("a desk listened before the standby had its rows")
    second.start()
    other.started()
    stand.judged()
    stand.finished(other)
    return f"a row on one machine only was not served until the standby had it, {stand.answered} answers"


def second_writer(setting):
    """Somebody else writes at the leader's place: the primary key refuses the leader's row, and it ends with 5."""
    stand = Stand(setting, new_server(setting))
    leads, other = stand.pair()
    clients = stand.work(leads, 0.1)
    pause(clients)
    stand.hang_up(clients)
    stand.judged()
    sent = [client.told for client in clients]
    stolen = steal(stand)
    if not nothing_told(clients, stand, 0.2):
        raise Loss("a change was answered that another writer's row stands in the place of")
    ended(leads, 5)
    if "another desk has written" not in leads.text():
        raise Loss(f"the desk does not say why: {leads.text().strip()}")
    stopped(clients)
    for client, told in zip(clients, sent):
        client.lines, client.told = client.lines[told:], 0
    clients[0].lines.insert(0, stolen)
    stand.hang_up(clients)
    other.started()
    stand.judged()
    stand.finished(other)
    return f"its row was refused, {stand.answered} answers"


def steal(stand):
    """Another writer's row at the leader's place: one booking of client 0 that the engine does."""
    place = stand.rows.records()[-1].after()
    while True:
        call = Call(REQUEST, tuple(stand.traffic[0].request()))
        answer = stand.judge.engine.would(call)
        if answer[0] == 0 and call.words[0] <= 16:
            break
    body = struct.pack("<8I", REQUEST << 16 | 7, *call.words)
    head = struct.pack("<IIQII", 28 + len(body), 1, place.seq, crc32c(struct.pack("<3I", *answer)), place.chain)
    record = head + struct.pack("<I", crc32c(head + body)) + body
    stand.server.sql(f"INSERT INTO desk_journal VALUES ('\\x{stand.number.hex()}', {place.seq}, '\\x{record.hex()}')")
    line = Line(hexed(call.words))
    line.told = hexed(answer)
    return line


def refuses(stand, code, words):
    """A start ends with this code, and says this."""
    desk = ended(stand.desk(0), code)
    if words not in desk.text():
        raise Loss(f"a start that ends with {code} should say {words!r}: {desk.text().strip()}")


def spoiled(stand, spoil, mend, code, words):
    """A table that somebody has spoiled is refused."""
    stand.server.sql(spoil)
    refuses(stand, code, words)
    stand.server.sql(mend)


def refusals(setting):
    """Servers, tables and rows that are not what they must be are refused in words."""
    server = new_server(setting)
    stand = Stand(setting, server)
    drop = "DROP TABLE desk_journal"
    spoiled(stand, "CREATE UNLOGGED TABLE desk_journal(site bytea, first bigint, record bytea NOT NULL, PRIMARY KEY (site, first))",
            drop, 2, "ordinary, logged")
    spoiled(stand, "CREATE TABLE desk_journal(site bytea, first bigint, record bytea)", drop, 2, "PRIMARY KEY (site, first)")
    spoiled(stand, "CREATE TABLE desk_journal(site bytea, first bigint, record bytea NOT NULL, PRIMARY KEY (site, first))",
            "ALTER TABLE desk_journal OWNER TO desk", 5, "give the role SELECT and INSERT")
    stand.finished(stand.desk(0).started())
    last = "WHERE first = (SELECT max(first) FROM desk_journal)"
    keep = "CREATE TABLE kept AS SELECT * FROM desk_journal"
    mend = "TRUNCATE desk_journal; INSERT INTO desk_journal SELECT * FROM kept; DROP TABLE kept"
    for spoil, words in ((f"DELETE FROM desk_journal {last}", "is not on the journal"),
                         (f"UPDATE desk_journal SET record = set_byte(record, 40, 255 - get_byte(record, 40)) {last}", "is damaged"),
                         ("TRUNCATE desk_journal", "is not on the journal")):
        spoiled(stand, f"{keep}; {spoil}", mend, 3, words)
    from_first(stand, keep, mend)
    hidden(stand)
    server.stop()
    server.start(fsync="off")
    refuses(stand, 2, "fsync=off")
    return "11 refused"


def from_first(stand, keep, mend):
    """With snapshot 0 alone, all rows are done again: a gap and a damaged row are found."""
    for path in stand.folders[0].glob("snap-*"):
        if path.name != "snap-" + 16 * "0":
            path.unlink()
    middle = "WHERE first = (SELECT first FROM desk_journal ORDER BY first OFFSET 3 LIMIT 1)"
    spoiled(stand, f"{keep}; DELETE FROM desk_journal {middle}", mend, 3, "does not follow")
    spoiled(stand, f"{keep}; UPDATE desk_journal SET record = record || '\\x00' {middle}", mend, 3, "is damaged")


def hidden(stand):
    """Rows that a policy hides are not taken for an empty journal; a trigger that drops rows is noticed."""
    stand.server.sql("ALTER TABLE desk_journal OWNER TO postgres; GRANT SELECT, INSERT ON desk_journal TO desk; "
                     "ALTER TABLE desk_journal ENABLE ROW LEVEL SECURITY")
    refuses(stand, 5, "row-level security")
    stand.server.sql("ALTER TABLE desk_journal DISABLE ROW LEVEL SECURITY")
    stand.server.sql("CREATE FUNCTION drop_row() RETURNS trigger LANGUAGE plpgsql AS 'BEGIN RETURN NULL; END'; "
                     "CREATE TRIGGER drops BEFORE INSERT ON desk_journal FOR EACH ROW EXECUTE FUNCTION drop_row()")
    desk = stand.desk(0).started()
    clients = stand.connect(desk)
    if not nothing_told(clients, stand, 0.2):
        raise Loss("a change was answered whose row a trigger dropped")
    stopped(clients)
    ended(desk, 5)
    stand.hang_up(clients)
    stand.judged()
    stand.server.sql("DROP TRIGGER drops ON desk_journal")
