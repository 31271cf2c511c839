"""Tests of relay.py: fates from a seed, and datagrams through a relay between views of a cluster."""

import socket
import unittest

from headers import Header, Role
from relay import Fates, Network, Weather
from running import all_roles, with_ports
from test_headers import header

PATIENCE = 10.0
QUIET = 0.05                    # seconds in which nothing comes that is lost


class FatesTest(unittest.TestCase):
    def test_a_seed_has_its_fates(self) -> None:
        weather = Weather(lost=0.3, twice=0.2, late=0.4, most=0.05)
        first, again, other = [[fates.next() for _ in range(1000)] for fates in (Fates(weather, 1), Fates(weather, 1), Fates(weather, 2))]
        self.assertEqual(first, again)
        self.assertNotEqual(first, other)
        for share, found in ((0.3, sum(not delays for delays in first)), (0.7 * 0.2, sum(len(delays) == 2 for delays in first)),
                             (0.7 * 0.4, sum(bool(delays) and delays[0] > 0 for delays in first))):
            self.assertAlmostEqual(found / 1000, share, delta=0.06)
        self.assertLessEqual(max(max(delays, default=0) for delays in first), 0.05)

    def test_edges(self) -> None:
        self.assertEqual(Fates(Weather(), 1).next(), [0])
        self.assertEqual(Fates(Weather(lost=1), 1).next(), [])
        self.assertEqual(len(Fates(Weather(twice=1), 1).next()), 2)
        self.assertTrue(Weather().is_fair)
        self.assertFalse(Weather(late=0.1).is_fair)


class NetworkTest(unittest.TestCase):
    """Two processes and the clients. Each role has its socket where its own view says."""

    LEADER, ACCEPTOR, CLIENT = Role("leader", 0), Role("acceptor", 0), Role("client", 0)

    def begin(self, weather: Weather = Weather()) -> None:
        roles = all_roles(header())
        hosted = [[self.LEADER], [role for role in roles if role.kind != "client" and role != self.LEADER]]
        self.views: list[Header] = with_ports(header(), 3)
        self.network = Network(self.views, hosted, roles, weather, 1)
        self.addCleanup(self.network.process.wait)
        self.addCleanup(self.network.process.kill)
        self.sockets = {role: self.socket(view, role) for view, role in enumerate((self.LEADER, self.ACCEPTOR, self.CLIENT))}

    def socket(self, view: int, role: Role) -> socket.socket:
        it = self.enterContext(socket.socket(socket.AF_INET, socket.SOCK_DGRAM))
        it.bind(("127.0.0.1", self.views[view].port(role)))
        return it

    def view(self, role: Role) -> Header:
        return self.views[list(self.sockets).index(role)]

    def send(self, sender: Role, receiver: Role, data: bytes) -> None:
        self.sockets[sender].sendto(data, ("127.0.0.1", self.view(sender).port(receiver)))

    def heard(self, receiver: Role, seconds: float = PATIENCE) -> tuple[bytes, int] | None:
        """What comes next, and from which port."""
        self.sockets[receiver].settimeout(seconds)
        try:
            data, (_, port) = self.sockets[receiver].recvfrom(100)
        except TimeoutError:
            return None
        return data, port

    def passes(self, sender: Role, receiver: Role, data: bytes) -> None:
        """A datagram comes from the port that the sender has in the receiver's view."""
        self.send(sender, receiver, data)
        self.assertEqual(self.heard(receiver), (data, self.view(receiver).port(sender)))

    def test_senders_ports(self) -> None:
        self.begin()
        for sender in self.sockets:
            for receiver in self.sockets:
                if sender != receiver:
                    self.passes(sender, receiver, f"{sender} {receiver}".encode())
        stranger = self.enterContext(socket.socket(socket.AF_INET, socket.SOCK_DGRAM))
        stranger.sendto(b"x", ("127.0.0.1", self.views[0].port(self.ACCEPTOR)))
        self.passes(self.LEADER, self.ACCEPTOR, b"y")
        self.assertEqual(self.network.end(), {"passed": 7, "repeated": 0, "of strangers": 1})

    def test_cuts(self) -> None:
        self.begin()
        ways = [(self.LEADER, self.ACCEPTOR), (self.ACCEPTOR, self.LEADER), (self.CLIENT, self.LEADER), (self.CLIENT, self.ACCEPTOR)]
        for order, open_ways in (("cut 0 both", ways[3:]), ("cut 0 in", [ways[0], ways[3]]), ("cut 0 out", ways[1:]), ("cut 1 both", ways[2:3])):
            self.network.tell(order)
            self.passes_once(open_ways[0])
            for way in ways:
                self.send(*way, order.encode())
            for way in open_ways:
                self.assertEqual(self.heard(way[1]), (order.encode(), self.view(way[1]).port(way[0])), (order, way))
            self.assertEqual([self.heard(role, QUIET) for role in self.sockets], [None] * 3)
            self.network.tell("heal")
            for way in ways:
                self.passes_once(way)
        self.assertEqual(self.network.end()["cut"] >= 3 + 2 + 1 + 3, True)

    def passes_once(self, way: tuple[Role, Role]) -> None:
        """Sends until something comes, since an order may come later than a datagram; then takes all that came."""
        while True:
            self.send(*way, b"again")
            if self.heard(way[1], QUIET):
                break
        while self.heard(way[1], QUIET):
            pass

    def test_weather(self) -> None:
        self.begin(Weather(lost=0.2, twice=0.5, late=0.5, most=0.01))
        for number in range(200):
            self.send(self.LEADER, self.ACCEPTOR, b"%d" % number)
        heard = []
        while found := self.heard(self.ACCEPTOR, 0.5):
            heard.append(int(found[0]))
        counts = self.network.end()
        self.assertEqual(len(heard), 200 - counts["lost"] + counts["repeated"])
        self.assertEqual(len(set(heard)), 200 - counts["lost"])
        self.assertNotEqual(heard, sorted(heard))


if __name__ == "__main__":
    unittest.main()
