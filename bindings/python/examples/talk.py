"""Times calls through both ends in one program: talk.py N. It writes the microseconds of a call."""
import sys, time
from kifzaro import Client, Server, State

def call_once(client, server):
    call = client.submit(b"ask me!!")
    while client.state(call) != State.DONE:
        for packet in client.transmits(1_000_000):
            server.handle_packet(packet, 1_000_000)
        while (request := server.next_request()) is not None:
            server.answer(request, 1_000_000)
        for _name, packet in server.transmits():
            client.handle_packet(packet, 1_000_000)
    return client.take_reply(call)

calls, keys = int(sys.argv[1]), "perm " + bytes(range(256)).hex()
client, server = Client(keys, "32d1586ea457dfc8"), Server(keys)
began = time.process_time()
for _ in range(calls):
    call_once(client, server)
print(f"{(time.process_time() - began) * 1e6 / calls:.2f}")
