"""Wrong desks: edits of the right one, each with the drill that must catch it. A drill that misses one is of no use."""

import os
import re
import shutil
import subprocess
from pathlib import Path
from typing import NamedTuple

import drills
import server
import stand
from judge import Loss, Trouble

ROOT = Path(__file__).resolve().parent.parent.parent.parent
SOURCE = "src/postgres/mod.rs"
INSERTED = 'self.session.run(Statement::Prepared(c"insert"), &values, |_| Ok(()))?;'
AFFIRMED = 'self.session.run(Statement::Prepared(c"affirm"), &[], |_| Ok(()))?;'
OPENED = "let session = Session::open(connection)?;"
# Where an edit needs a second session, it finds the connection here.
KNOWN = (OPENED, OPENED + ' std::env::set_var("WRONG_DESK", connection);')
CONNECTION = 'std::env::var("WRONG_DESK").unwrap()'


def again(run):
    """A statement that is run once more, in a new session, where it fails."""
    once = run.rstrip("?;")
    return f"""match {once} {{
            Ok(count) => count,
            Err(_) => {{
                let table = Table::open(&{CONNECTION}, self.site)?;
                table.session.prepare(c"insert", INSERT)?;
                table.session.prepare(c"affirm", AFFIRM)?;
                self.session = table.session;
                {once}?
            }}
        }};"""


class Wrong(NamedTuple):
    name: str
    drill: object
    edits: tuple


WRONG = (
    Wrong("goes on over a new session", drills.session, (KNOWN, (INSERTED, again(INSERTED)), (AFFIRMED, again(AFFIRMED)))),
    Wrong("has the lock in another session", drills.session, (KNOWN, (
        "Ok(self.session.value(TRY_LOCK, &[&lock_key(&self.site)])?.as_deref() == Some(TRUE))", f"""
        let keeper = Session::open(&{CONNECTION})?;
        let has = keeper.value(TRY_LOCK, &[&lock_key(&self.site)])?.as_deref() == Some(TRUE);
        if has {{ std::mem::forget(keeper); }}
        Ok(has)"""))),
    Wrong("answers questions without its session", drills.session, ((AFFIRMED, ""),)),
    Wrong("asks for no lock", drills.leader, (("let leads = table.try_lock()?;", "let leads = table.try_lock()? || true;"),)),
    Wrong("leads on a standby", drills.standby, (("CASE WHEN pg_is_in_recovery() THEN false", "CASE WHEN false THEN false"),)),
    Wrong("ignores notices", drills.cancelled, (("if notices.is_empty() {", "if notices.is_empty() || true {"),)),
    Wrong("leaves the role's silence about warnings", drills.cancelled, (("('client_min_messages', 'notice'), ", ""),)),
    Wrong("waits for its own disk alone", drills.cancelled, (("('synchronous_commit', 'on')", "('synchronous_commit', 'local')"),)),
    Wrong("serves rows that are on one machine only", drills.unsettled, (("table.settle()?;", ""),)),
    Wrong("writes over another's row", drills.second_writer, (
        ("VALUES ($1::bytea, $2::bigint, $3::bytea)", "VALUES ($1::bytea, $2::bigint, $3::bytea) "
         "ON CONFLICT (site, first) DO UPDATE SET record = excluded.record"),)),
    Wrong("takes a snapshot that is not on the journal", drills.refusals, (("if end != place {", "if end != place && false {"),)),
    Wrong("does not count the rows that it stored", drills.refusals, (("if count != 1 {", "if count > 1 {"),)),
)


def edited(wrong, folder):
    """A copy of the desk with the edits; each old text must stand there once, however its lines are broken."""
    shutil.copytree(ROOT / "desk", folder / "desk", ignore=shutil.ignore_patterns("target", "drill", "__pycache__"))
    if not (folder / "bindings").exists():
        (folder / "bindings").symlink_to(ROOT / "bindings")
    path = folder / "desk" / SOURCE
    text = path.read_text(encoding="utf-8")
    for old, new in wrong.edits:
        pattern = r"\s*".join(re.escape(part) for part in old.split())
        text, count = re.subn(pattern, lambda _: new, text)
        if count != 1:
            raise Trouble(f"the wrong desk that {wrong.name} cannot be made: {old!r} stands there {count} times")
    path.write_text(text, encoding="utf-8")


def built(folder):
    target = Path(os.environ.get("CARGO_TARGET_DIR", ROOT / "target" / "cargo")).resolve() / "wrong"
    env = {**os.environ, "CARGO_TARGET_DIR": str(target), "CARGO_NET_OFFLINE": "true"}
    env.setdefault("CAVIAR_LIB_DIR", str(ROOT / "target" / "staticlib"))
    command = ["cargo", "build", "--locked", "--features", "pg", "--manifest-path", folder / "desk" / "Cargo.toml"]
    done = subprocess.run(command, env=env, capture_output=True, text=True, check=False)
    if done.returncode:
        raise Trouble(f"a wrong desk cannot be built:\n{done.stderr}")
    return target / "debug" / "desk"


def caught(wrong, setting):
    """What the drill says of the wrong desk."""
    edited(wrong, setting.work)
    program = built(setting.work)
    try:
        wrong.drill(setting._replace(desk=program, rounds=2))
    except Loss as loss:
        return str(loss).splitlines()[0]
    finally:
        stand.end_all()
        server.end_all()
    raise Loss(f"the drill {wrong.drill.__name__} does not catch the desk that {wrong.name}")


def all_caught(setting):
    """Each wrong desk is caught by its drill."""
    for number, wrong in enumerate(WRONG):
        work = setting.work / str(number)
        work.mkdir()
        print(f"    {wrong.name}: {caught(wrong, setting._replace(work=work))[:110]}", flush=True)
        shutil.rmtree(work)
    return f"{len(WRONG)} wrong desks caught"
