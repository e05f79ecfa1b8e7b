#!/usr/bin/env python3
"""Many clients of the example server, at once: usage: client.py PORT SILENCE [CONNECTIONS]

SILENCE is the server's, in milliseconds. Of four clients in a row
  - one says lines before and behind its login, asks who it is, and quits;
  - one says nothing at all;
  - one is silent behind its login;
  - one breaks off.
So half of them are silent until their time-out. What each is told is compared, line by line, and when the silent ones are
told that they are let go. It prints the differences, how many clients there were, and how many at once. Status 0: there
was no difference; 2: the clients could not be started.
"""
import asyncio
import resource
import sys

# How late a time-out may come, on a machine that has other things to do.
LATE = 5.0
# How many connections are being made at a time: a server's queue of those that it has not taken may be short.
AT_A_TIME = 64


class Client:
    """One connection: what it was told, and when the last line of it came."""

    def __init__(self, reader, writer):
        self.reader, self.writer, self.told, self.last = reader, writer, [], now()

    def say(self, text):
        self.writer.write(text.encode())

    async def hear(self):
        """Reads until the server ends the connection."""
        while line := await self.reader.readline():
            self.told.append(line.decode().rstrip("\n"))
            self.last = now()
        self.writer.close()

    def check_time(self, begun, silence):
        took = self.last - begun
        if not silence - 0.01 <= took <= silence + LATE:
            self.told.append(f"(after {took:.3f} seconds)")


def now():
    return asyncio.get_running_loop().time()


async def talks(client, name, clients, _):
    client.say("one\nwho\n")
    await clients.gathered()
    await asyncio.sleep(clients.silence / 3)
    client.say(f"login {name}\ntwo\nwho\nquit\n")
    await client.hear()
    return [f"welcome {name}", f"{name} 1: one", f"{name}, 1 lines", f"{name} 2: two", f"{name}, 2 lines", "bye"]


async def says_nothing(client, _, clients, begun):
    await client.hear()
    client.check_time(begun, clients.silence)
    return ["bye idle"]


async def falls_silent(client, name, clients, _):
    client.say(f"login {name}\n")
    await asyncio.sleep(clients.silence / 2)
    begun = now()
    client.say("x\n")
    await client.hear()
    client.check_time(begun, clients.silence)
    return [f"welcome {name}", f"{name} 1: x", "bye idle"]


async def breaks_off(client, name, clients, _):
    client.say(f"login {name}\nhalf a li")
    await clients.gathered()
    await asyncio.sleep(clients.silence / 4)
    client.writer.transport.abort()
    return []


class Clients:
    """All of them."""

    def __init__(self, port, silence, count):
        self.port, self.silence, self.count, self.faults = port, silence, count, []
        self.connecting, self.all = asyncio.Semaphore(AT_A_TIME), asyncio.Event()
        self.connected, self.open, self.most = 0, 0, 0

    async def gathered(self):
        """Waits until all are connected, but not so long that the server would end the connection."""
        try:
            await asyncio.wait_for(self.all.wait(), self.silence / 3)
        except asyncio.TimeoutError:
            pass

    async def connect(self):
        async with self.connecting:
            begun = now()
            client = Client(*await asyncio.open_connection("127.0.0.1", self.port))
        self.connected += 1
        self.open += 1
        self.most = max(self.most, self.open)
        if self.connected == self.count:
            self.all.set()
        return client, begun

    async def one(self, number):
        kinds = (talks, says_nothing, falls_silent, breaks_off)
        kind, name = kinds[number % len(kinds)], f"client{number}"
        try:
            client, begun = await self.connect()
            limit = self.silence * 3 + 4 * LATE
            wanted = await asyncio.wait_for(kind(client, name, self, begun), limit)
            self.open -= 1
            if client.told != wanted:
                self.faults.append(f"{name} {kind.__name__}: was told {client.told}, wanted {wanted}")
        except (OSError, asyncio.TimeoutError) as error:
            self.faults.append(f"{name} {kind.__name__}: {error!r}")


async def play(port, silence, count):
    clients = Clients(port, silence, count)
    await asyncio.gather(*(clients.one(it) for it in range(count)))
    return clients


def main(port, silence, count="1000"):
    soft, hard = resource.getrlimit(resource.RLIMIT_NOFILE)
    wanted = int(count) + 64
    if soft != resource.RLIM_INFINITY and soft < wanted:
        if hard != resource.RLIM_INFINITY and hard < wanted:
            print(f"client.py: {wanted} files may not be open here")
            return 2
        resource.setrlimit(resource.RLIMIT_NOFILE, (wanted, hard))
    clients = asyncio.run(play(int(port), int(silence) / 1000, int(count)))
    for it in clients.faults[:20]:
        print(it)
    print(f"clients {count}, at once {clients.most}, differences {len(clients.faults)}")
    return bool(clients.faults)


if __name__ == "__main__":
    if len(sys.argv) not in (3, 4):
        sys.exit("usage: client.py PORT SILENCE [CONNECTIONS]")
    sys.exit(main(*sys.argv[1:]))
