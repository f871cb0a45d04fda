"""A test server over TCP, of many connections at once, that answers each call with its own body: server.py PORT KEY_FILE."""
import asyncio, contextlib, sys
from kifzaro import Refused, Server, Wire

async def serve(server, ends, reader, writer):
    with contextlib.closing(writer):
        wire = Wire.server()
        while piece := await reader.read(65536):
            for packet in wire.feed(piece):
                try:
                    name = server.handle_packet(packet)
                except Refused as why:
                    print(why, file=sys.stderr)
                    continue
                if ends.get(name) != (wire, writer):
                    ends[name] = wire, writer
                    server.attach(name)
                server.tick()
                while (request := server.next_request()) is not None:
                    server.answer(request)
                for to, packet in server.transmits():
                    ends[to][1].write(ends[to][0].frame(packet))

async def main(port, keys):
    server, ends = Server(keys), {}
    listening = await asyncio.start_server(lambda *streams: serve(server, ends, *streams), "127.0.0.1", port)
    print("listening", listening.sockets[0].getsockname()[1], flush=True)
    await listening.serve_forever()

asyncio.run(main(int(sys.argv[1]), open(sys.argv[2]).read()))
