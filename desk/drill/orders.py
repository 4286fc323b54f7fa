"""Orders: thousands of orders with repeats near (the engine's ring still keeps them), far (only the desk remembers them) and with
other words (28), over kills and ends, so over replays and snapshots. The judge knows each first answer. In the long run more than
65,536 new orders come behind one that is sent again: it is then a new one."""

import random

from clients import Client, drain, finish
from desk import book_at
from drillsite import Site
from judge import REMEMBERED, Loss
from traffic import hexed

WINDOW = 400
PART = 1500


class Orders:
    """A client's orders: new ones, and repeats from all over the past."""

    def __init__(self, traffic, chance):
        self.traffic, self.random, self.past = traffic, chance, []

    def text(self):
        turn = self.random.random()
        if not self.past or turn < 0.6:
            self.past.append((*self.traffic.request(), self.traffic.next_order))
            self.traffic.next_order += 1
            return hexed(self.past[-1])
        near = turn < 0.75
        words = self.random.choice(self.past[-40:] if near else self.past)
        return hexed(words if self.random.random() < 0.85 else (*self.traffic.request(), words[7]))


def part(site, orders, count, gently):
    """So many lines; then the desk ends or is killed, and the site is judged."""
    desk = site.serve("--every", 700).started()
    clients = [Client(site.folder) for _ in site.traffic]
    while count > 0:
        for client, own in zip(clients, orders):
            client.send(*(own.text() for _ in range(WINDOW // len(clients))))
        finish(clients)
        count -= WINDOW
    if gently:
        desk.end()
    else:
        desk.kill()
    drain(clients)
    if any(line.told is None for client in clients for line in client.lines):
        raise Loss("an order is not answered")
    site.judged(clients)
    return sum(len(client.lines) for client in clients)


def run(setting):
    chance = random.Random(setting.seed)
    site = Site(setting, "orders", setting.seed)
    orders = [Orders(traffic, chance) for traffic in site.traffic]
    lines = 0
    for number in range(setting.rounds):
        lines += part(site, orders, PART, number % 2)
    if setting.long:
        while sum(len(own.past) for own in orders) < REMEMBERED + 20000:
            lines += part(site, orders, 20 * PART, chance.random() < 0.5)
    # A site that is made from the book remembers what the ring has.
    site = Site(setting, "imported", setting.seed, words=book_at(setting, site.folder, len(site.judge.calls)))
    lines += part(site, orders, PART, False)
    return f"{lines} lines, {sum(len(own.past) for own in orders)} orders over {setting.rounds} starts, and from an imported book"
