"""Loads a test server over TCP: load.py PORT KEY_FILE KEY CONNECTIONS CALLS.

All connections are open before the first call; each submits its calls one after the other, 200 connections at a time, since a server keeps
256 sessions. It writes how many calls a second were done over all, and how many weren't done.
"""
import asyncio, sys, time
from kifzaro import Client, State, Wire

async def run(client, calls, turns, reader, writer):
    wire, done = Wire.client(), 0
    async with turns:
        for _ in range(calls):
            call = client.submit(b"ask me!!")
            while not client.calls_decided():
                writer.writelines(wire.frame(packet) for packet in client.transmits())
                for packet in wire.feed(await reader.read(65536)):
                    client.handle_packet(packet)
            done += client.state(call) == State.DONE
    return done

async def main(port, keys, key, connections, calls):
    turns, streams = asyncio.Semaphore(200), [await asyncio.open_connection("127.0.0.1", port) for _ in range(connections)]
    clients = [Client(keys, key) for _ in range(connections)]
    began = time.monotonic()
    done = sum(await asyncio.gather(*(run(client, calls, turns, *its) for client, its in zip(clients, streams))))
    print(f"{done / (time.monotonic() - began):.0f} calls a second, {connections * calls - done} not done")

port, keys, key, connections, calls = sys.argv[1:]
asyncio.run(main(int(port), open(keys).read(), key, int(connections), int(calls)))
