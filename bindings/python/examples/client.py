"""Calls over TCP: client.py PORT KEY_FILE KEY BODY.."""
import asyncio, sys
from kifzaro import Client, Wire
async def run(port, client):
    wire, (reader, writer) = Wire.client(), await asyncio.open_connection("127.0.0.1", port)
    while not client.calls_decided():
        writer.writelines(wire.frame(packet) for packet in client.transmits())
        for packet in wire.feed(await reader.read(65536)):
            client.handle_packet(packet)
        client.renew_if_held()

client = Client(open(sys.argv[2]).read(), sys.argv[3])
calls = [client.submit(body.encode()) for body in sys.argv[4:]]
asyncio.run(run(int(sys.argv[1]), client))
print(*(client.take_reply(call).decode() for call in calls), sep="\n")
