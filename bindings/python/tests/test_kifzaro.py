"""Tests of the package, by the library that bindings/build made: python3 -m unittest discover -s tests"""
import os
import pathlib
import re
import subprocess
import sys
import tempfile
import threading
import unittest
import zipfile

PACKAGE = pathlib.Path(__file__).parent.parent
sys.path.insert(0, str(PACKAGE))

import packing
from kifzaro import (Busy, Client, Closed, Ended, KifzaroError, NoReply, NotAsked, NotOpen, NotSent, OutOfMemory, Refused, Server, Spent, State,
                     TooMany, Unfit, Wire, build, key_id, version)
from kifzaro._errors import error_of
from kifzaro._library import TOO_SHORT

KEY = bytes(range(256))
KEYS = "perm " + KEY.hex()
NOW = 1_000_000


def ends(seeds=(1, 2)):
    return Client(KEYS, key_id(KEY), seed=bytes([seeds[0]] * 32)), Server(KEYS, seed=bytes([seeds[1]] * 32))


def turn(client, server, now=NOW, answer=lambda request: request):
    for packet in client.transmits(now):
        server.handle_packet(packet, now)
    while (request := server.next_request()) is not None:
        server.answer(answer(request), now)
    for _name, packet in server.transmits():
        client.handle_packet(packet, now)


class Talks(unittest.TestCase):
    def test_a_call_comes_to_its_reply(self):
        client, server = ends()
        call = client.submit(b"ask me!!")
        self.assertEqual(client.state(call), State.QUEUED)
        for _ in range(5):
            turn(client, server, answer=lambda request: request[::-1])
        self.assertEqual(client.state(call), State.DONE)
        self.assertEqual(client.take_reply(call), b"!!em ksa")
        self.assertTrue(client.calls_decided())

    def test_a_packet_that_comes_twice_runs_once(self):
        client, server = ends()
        client.submit(b"add five")
        asked = []
        for _ in range(5):
            packets = list(client.transmits(NOW))
            for packet in packets + packets:
                server.handle_packet(packet, NOW)
                while (request := server.next_request()) is not None:
                    asked.append(request)
                    server.answer(b"done", NOW)
            for _name, packet in server.transmits():
                client.handle_packet(packet, NOW)
        self.assertEqual(asked, [b"add five"])

    def test_a_restart_loses_the_session(self):
        client, server = ends()
        call = client.submit(b"1234")
        for _ in range(5):
            turn(client, server)
        later = client.submit(b"5678")
        server.restart()
        for _ in range(8):
            turn(client, server)
        self.assertEqual(client.take_reply(call), b"1234")
        self.assertIn(client.state(later), (State.DONE, State.UNKNOWN))

    def test_a_temporary_key(self):
        temp, expires = KEY[::-1], NOW + 1000
        keys = f"{KEYS}\ntemp {expires} {temp.hex()}\n"
        client, server = Client(keys, key_id(temp), bind_to=(key_id(KEY), expires)), Server(keys)
        call = client.submit(b"ask me!!")
        for _ in range(8):
            turn(client, server)
        self.assertEqual(client.take_reply(call), b"ask me!!")
        call = client.submit(b"too late")
        self.assertRaises(Refused, turn, client, server, expires)
        self.assertEqual(client.state(call), State.SENT)

    def test_a_clock_that_is_ahead(self):
        client, server = ends()
        call, states = client.submit(b"ask me!!"), []
        for _ in range(9):
            for packet in client.transmits(NOW + 60):
                server.handle_packet(packet, NOW)
            while (request := server.next_request()) is not None:
                server.answer(request, NOW)
            for _name, packet in server.transmits():
                client.handle_packet(packet, NOW + 60)
            states.append(client.state(call))
            client.renew_if_held()
        self.assertEqual((states.count(State.HELD), states[-1]), (1, State.DONE))

    def test_a_reply_of_many_bytes(self):
        client, server = ends()
        call = client.submit(b"much")
        for _ in range(5):
            turn(client, server, answer=lambda request: bytes(262144))
        self.assertEqual(client.take_reply(call), bytes(262144))


def settle(client, server):
    """What both ends have to send reaches the other, until there is nothing. How many bytes the server sent."""
    sent = 0
    while True:
        up = list(client.transmits(NOW))
        for packet in up:
            server.handle_packet(packet, NOW)
        down = [packet for _name, packet in server.transmits()]
        for packet in down:
            client.handle_packet(packet, NOW)
        if not up and not down:
            return sent
        sent += sum(map(len, down))


class Wishes(unittest.TestCase):
    """What an open client is asked for: each does what no other one does."""

    def setUp(self):
        self.client, self.server = ends()
        self.call = self.client.submit(b"ask me!!")
        settle(self.client, self.server)
        self.assertEqual((self.client.state(self.call), self.server.ready()), (State.SENT, 1))

    def test_a_tick_asks_of_a_call_that_is_sent(self):
        self.client.tick()
        self.assertGreater(settle(self.client, self.server), 0)
        self.assertEqual((self.client.state(self.call), self.server.ready()), (State.SENT, 1))

    def test_an_answer_that_is_dropped_leaves_no_request(self):
        self.assertRaises(NotSent, self.client.drop_answer, 2)
        self.client.drop_answer(self.call)
        settle(self.client, self.server)
        self.assertEqual((self.client.take_reply(self.call), self.server.ready()), (0xCD78E586.to_bytes(4, "little"), 0))
        self.client.tick()
        self.assertEqual(settle(self.client, self.server), 0)

    def test_pings_and_salts(self):
        self.client.ping(7)
        pong = settle(self.client, self.server)
        self.client.ping(7)
        self.client.ping(8)
        self.assertEqual((settle(self.client, self.server), pong > 0), (pong, True))
        self.client.ask_salts(1)
        one = settle(self.client, self.server)
        self.client.ask_salts(5)
        self.assertEqual((settle(self.client, self.server), one > 0), (one + 4 * 16, True))

    def test_another_session(self):
        before = self.client.session
        self.client.renew()
        self.assertNotEqual(self.client.session, before)
        self.assertEqual(self.client.state_and_code(self.call), (State.UNKNOWN, 2))
        self.assertRaises(NotOpen, self.client.renew)
        again = self.client.submit(b"ask me!!")
        for _ in range(5):
            turn(self.client, self.server)
        self.assertEqual((self.client.state(self.call), self.client.state(again)), (State.UNKNOWN, State.DONE))

    def test_an_end(self):
        before, later = self.client.session, self.client.submit(b"too late")
        self.client.end()
        self.assertEqual((self.client.session, self.client.calls_decided()), (before, True))
        self.assertEqual((self.client.state_and_code(self.call), self.client.state_and_code(later)), ((State.UNKNOWN, 3), (State.REFUSED, 0)))
        self.assertRaises(Ended, self.client.attach)
        self.assertEqual(settle(self.client, self.server), 0)


class Refusals(unittest.TestCase):
    def test_what_is_refused(self):
        client, server = ends()
        with self.assertRaises(ValueError):
            Client("no key file", 1)
        with self.assertRaises(KifzaroError) as found:
            Client(KEYS, 1)
        self.assertEqual(found.exception.status, 6)
        with self.assertRaises(ValueError):
            client.submit(b"odd")
        with self.assertRaises(ValueError):
            client.state(1)
        with self.assertRaises(NotOpen):
            client.ping(7)
        with self.assertRaises(Refused):
            server.handle_packet(bytes(100), NOW)
        with self.assertRaises(NoReply):
            client.take_reply(client.submit(b"1234"))
        with self.assertRaises(Refused):
            client.handle_packet(bytes(100), NOW)
        client.close()
        client.close()
        self.assertRaises(Closed, client.attach)
        for unfit in (lambda: Client(KEYS, "32d1"), lambda: Client(KEYS, key_id(KEY), seed=b"short")):
            self.assertRaises(ValueError, unfit)

    def test_a_busy_server(self):
        client, server = ends()
        client.submit(b"1234")
        for _ in range(5):
            for packet in client.transmits(NOW):
                server.handle_packet(packet, NOW)
            if server.ready():
                break
            for _name, packet in server.transmits():
                client.handle_packet(packet, NOW)
        self.assertEqual(server.next_request(), b"1234")
        self.assertEqual(server.next_request(), b"1234")
        for refused in (lambda: server.handle_packet(bytes(100), NOW), lambda: server.tick(NOW), server.restart):
            self.assertRaises(Busy, refused)
        with self.assertRaises(ValueError):
            server.answer(b"odd", NOW)
        server.answer(b"5678", NOW)
        self.assertIsNone(server.next_request())
        with self.assertRaises(NotAsked):
            server.answer(b"5678", NOW)

    def test_numbers_that_do_not_fit(self):
        client, server = ends()
        call = client.submit(memoryview(b"even"))
        for unfit in (lambda: client.state(call + 2**64), lambda: client.poll_transmit(-1), lambda: server.tick(2**64), lambda: client.ask_salts(2**32),
                      lambda: server.attach((1, -1), NOW), lambda: Client(KEYS, -1), lambda: Client(KEYS, "32d1586ea457dfc "), lambda: client.submit(b"even", -1)):
            self.assertRaises(ValueError, unfit)
        self.assertRaises(TypeError, server.tick, 1.5)
        self.assertRaises(TypeError, client.submit, "text")

    def test_threads_wait_for_one_another(self):
        client, calls = Client(KEYS, key_id(KEY)), []
        threads = [threading.Thread(target=lambda: calls.extend(client.submit(b"even") for _ in range(200))) for _ in range(4)]
        for each in threads:
            each.start()
        for each in threads:
            each.join()
        self.assertEqual(sorted(calls), list(range(1, 801)))


class Framing(unittest.TestCase):
    def test_any_cut_into_pieces(self):
        packets = [b"", b"abcd", bytes(1000)]
        for size in (1, 3, 4, 5, 2000):
            client, server, found = Wire.client(), Wire.server(), []
            stream = b"".join(client.frame(packet) for packet in packets)
            for at in range(0, len(stream), size):
                found += server.feed(stream[at : at + size])
            self.assertEqual(found, packets)

    def test_what_comes_back(self):
        self.assertEqual(list(Wire.client().feed(Wire.server().frame(b"abcd"))), [b"abcd"])

    def test_faults(self):
        self.assertRaises(ValueError, list, Wire.server().feed(b"GET "))
        self.assertRaises(ValueError, list, Wire.client().feed(b"\x01\x00\x10\x00"))
        self.assertRaises(EOFError, Wire.client().feed, b"")


class Examples(unittest.TestCase):
    def example(self, name, *words):
        paths = os.pathsep.join([str(PACKAGE), os.environ.get("PYTHONPATH", "")])
        return subprocess.Popen([sys.executable, str(PACKAGE / "examples" / name), *words], stdout=subprocess.PIPE, text=True, env={**os.environ, "PYTHONPATH": paths})

    def test_two_clients_and_a_server(self):
        with tempfile.TemporaryDirectory() as room:
            keys = os.path.join(room, "keys")
            pathlib.Path(keys).write_text(f"# A key that everybody knows.\n{KEYS}\n")
            with self.example("server.py", "0", keys) as server:
                try:
                    port = re.fullmatch(r"listening (\d+)\n", server.stdout.readline())[1]
                    clients = [self.example("client.py", port, keys, "32d1586ea457dfc8", *bodies) for bodies in (["abcd", "efghijkl"], ["1234"])]
                    self.assertEqual([client.communicate(timeout=300)[0] for client in clients], ["abcd\nefghijkl\n", "1234\n"])
                finally:
                    server.kill()


class Packing(unittest.TestCase):
    def test_the_wheel_holds_the_package_and_the_library(self):
        with tempfile.TemporaryDirectory() as room:
            with zipfile.ZipFile(os.path.join(room, packing.build_wheel(room))) as wheel:
                wheel.extractall(room)
            tells = [sys.executable, "-c", "import kifzaro; print(kifzaro.version(), kifzaro.__file__)"]
            told = subprocess.run(tells, cwd=room, env={**os.environ, "PYTHONPATH": room}, capture_output=True, text=True, check=True).stdout
            self.assertEqual(told.split(), [version(), os.path.join(room, "kifzaro", "__init__.py")])


class About(unittest.TestCase):
    def test_the_numbers_of_the_header(self):
        header = (PACKAGE.parent / "c" / "kifzaro.h").read_text()
        numbers = {name: int(number) for name, number in re.findall(r"^    KF_([A-Z_]+) = (\d+)", header, re.MULTILINE)}
        self.assertEqual({state.name: state.value for state in State}, {name: numbers[name] for name in State.__members__})
        errors = {"MEMORY": OutOfMemory, "NO_HANDLE": Closed, "TOO_MANY": TooMany, "ENDED": Ended, "NOT_OPEN": NotOpen, "NOT_SENT": NotSent,
                  "NO_REPLY": NoReply, "SPENT": Spent, "BUSY": Busy, "NOT_ASKED": NotAsked}
        errors |= dict.fromkeys(("BAD_KEYS", "NO_KEY", "BAD_SEED", "BAD_BODY", "NO_CALL", "BAD_REPLY"), Unfit)
        errors |= dict.fromkeys((name for name in numbers if name.startswith("REFUSED_")), Refused)
        self.assertEqual({name: type(error_of(numbers[name], "")) for name in errors}, errors)
        self.assertEqual(numbers["TOO_SHORT"], TOO_SHORT)

    def test_version_and_build(self):
        self.assertRegex(version(), r"^\d+\.\d+$")
        self.assertIn(build(), ("proved", "checked, not proved"))


if __name__ == "__main__":
    unittest.main()
