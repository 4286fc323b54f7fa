"""Full: the disk fills up while clients are served. The desk must end with 5, tell its clients, and have answered nothing that is not
stored; a start must end with 5 as long as there is no space, and with space everything is there.

The disk is by turns a small tmpfs, where the drill may mount one, and the fault library, which answers ENOSPC from some write on."""

import errno
import random
import subprocess

import faults
from clients import drain, talk
from desk import end_all
from drillsite import Site
from judge import Loss

# Twice the space that the journal takes ahead, and some more: one of them is full of records when the disk is full.
SIZE = "3m"


def mounted(path):
    """Mounts a small disk there; False where this is not allowed."""
    path.mkdir()
    command = ["mount", "-t", "tmpfs", "-o", f"size={SIZE}", "tmpfs", str(path)]
    try:
        return subprocess.run(command, capture_output=True, check=False).returncode == 0
    except OSError:
        return False


def filled(site, desk):
    """Clients send until the desk has ended."""
    clients = site.clients()
    for _ in range(200):
        talk(clients, 0.1)
        if not any(client.open for client in clients):
            break
    drain(clients)
    if desk.code() != 5:
        raise Loss(f"the disk is full, and the desk ended with {desk.code()}: {desk.text().strip()}")
    if not all(client.message and client.message.startswith("! stopped: ") for client in clients):
        raise Loss("the disk is full, and a client was not told")
    site.judged(clients)
    return clients


def starts_not(site, env=None):
    desk = site.serve(env=env)
    if desk.listens() or desk.code() != 5:
        raise Loss(f"without space a start ended with {desk.code()}: {desk.text().strip()}")


def starts(site):
    """With space everything is there, and is served."""
    desk = site.serve().started()
    clients = site.clients()
    talk(clients, 0.05)
    desk.kill()
    drain(clients)
    site.judged(clients)


def on_small_disk(setting, place, chance):
    """A file of somebody else's fills the disk up to some point: the desk's first space is reserved, the next is not."""
    site = Site(setting, f"{place.name}/site", setting.seed)
    desk = site.serve("--every", chance.choice((100, 100000)) if setting.long else 100).started()
    rest = place / "rest"
    fill(rest)
    clients = filled(site, desk)
    starts_not(site)
    rest.unlink()
    starts(site)
    return clients


def fill(path):
    """Writes until nothing more goes on the disk."""
    with open(path, "wb", buffering=0) as file:
        try:
            while True:
                file.write(bytes(4096))
        except OSError as error:
            if error.errno != errno.ENOSPC:
                raise


def with_library(setting, number, chance):
    site = Site(setting, f"full{number}", setting.seed)
    site.serve().started().end()
    refuse = faults.variables(site.folder, at=chance.randrange(10, 60), how=errno.ENOSPC, lasting=True, ops="WC")
    clients = filled(site, site.serve("--every", chance.choice((20, 100000)), env=refuse).started())
    starts_not(site, faults.variables(site.folder, at=1, how=errno.ENOSPC, lasting=True, ops="WC", name="log"))
    starts(site)
    return clients


def run(setting):
    chance, lines, small = random.Random(setting.seed), 0, 0
    for number in range(setting.rounds):
        place = setting.work / f"disk{number}"
        if number % 2 or not mounted(place):
            clients = with_library(setting, number, chance)
        else:
            small += 1
            try:
                clients = on_small_disk(setting, place, chance)
            finally:
                end_all()
                subprocess.run(["umount", str(place)], check=False)
        lines += sum(client.told for client in clients)
    return f"{small} full disks (tmpfs of {SIZE}), {setting.rounds - small} by the fault library, {lines} lines answered before"
