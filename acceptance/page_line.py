"""A slow line to the front server: what is sent over it comes later, and so many octets a second."""

import asyncio
import threading


class Direction:
    """One of its directions. Its octets stand in one line, whatever connection they are of."""

    def __init__(self, delay, rate):
        self.delay, self.rate, self.free = delay, rate, 0.0

    async def carry(self, reader, writer):
        """Carries what is read to its other end."""
        clock, waiting = asyncio.get_running_loop().time, asyncio.Queue(256)
        putting = asyncio.create_task(self.put(waiting, writer, clock))
        octets = b"all"
        while octets and not putting.done():
            try:
                octets = await reader.read(1400)
            except OSError:
                octets = b""
            self.free = max(self.free, clock()) + len(octets) / self.rate
            await waiting.put((self.free + self.delay, octets))
        await putting

    @staticmethod
    async def put(waiting, writer, clock):
        """Writes each part once its time has come; an empty one ends it."""
        try:
            while True:
                until, octets = await waiting.get()
                await asyncio.sleep(max(0, until - clock()))
                if not octets:
                    writer.write_eof()
                    return
                writer.write(octets)
                await writer.drain()
        except OSError:
            return


class SlowLine:
    """A line with a round trip of so many seconds, at an address of this machine, to another one."""

    def __init__(self, here, there, trip, rate):
        self.there, self.trip = there, trip
        self.up, self.down = Direction(trip / 2, rate), Direction(trip / 2, rate)
        self.is_open = threading.Event()
        threading.Thread(target=lambda: asyncio.run(self.serve(here)), daemon=True).start()
        self.is_open.wait(10)

    async def serve(self, here):
        """Takes connections for good."""
        server = await asyncio.start_server(self.connection, *here)
        self.is_open.set()
        async with server:
            await server.serve_forever()

    async def connection(self, reader, writer):
        """A connection: its handshake takes a round trip too."""
        await asyncio.sleep(self.trip)
        try:
            other_reader, other_writer = await asyncio.open_connection(*self.there)
        except OSError:
            writer.close()
            return
        await asyncio.gather(self.up.carry(reader, other_writer), self.down.carry(other_reader, writer))
        writer.close()
        other_writer.close()
