"""service.py ADDRESSES TOPIC PORT: publishes the body of each POST, and answers with the partition and the offset of its record.

It says where it listens, serves until it is told to end (SIGTERM, or Ctrl-C), and then waits for the records that are open."""

import asyncio
import logging
import signal
import sys

from lembicsov import AsyncProducer, MayStand, NotDelivered, ProducerError

LIMIT = 1 << 20  # The most bytes of a body.


async def respond(producer: AsyncProducer, reader: asyncio.StreamReader) -> tuple[str, str]:
    """The status and the text of the answer to the request that comes."""
    head = (await reader.readuntil(b"\r\n\r\n")).decode("latin-1")
    request, *lines = head.split("\r\n")
    fields = {name.strip().lower(): value.strip() for name, _, value in (line.partition(":") for line in lines)}
    length = fields.get("content-length", "")
    if not request.startswith("POST "):
        return "405 Method Not Allowed", "POST it\n"
    if not length.isdecimal() or int(length) > LIMIT:
        return "413 Content Too Large", f"the body's length is to be told, and {LIMIT} at most\n"
    try:
        report = await producer.send(await reader.readexactly(int(length)))
    except MayStand as error:
        return "504 Gateway Timeout", f"it may stand in the log or not: {error}\n"
    except NotDelivered as error:
        return "502 Bad Gateway", f"{error}\n"
    except ProducerError as error:  # It was not accepted: the service is too busy, or has no broker.
        return "503 Service Unavailable", f"{error}\n"
    return "200 OK", f"{report.partition} {'' if report.offset is None else report.offset}\n"


async def main(addresses: str, topic: str, port: str) -> None:
    async def serve(reader: asyncio.StreamReader, writer: asyncio.StreamWriter) -> None:
        try:
            status, text = await respond(producer, reader)
            writer.write(f"HTTP/1.1 {status}\r\nContent-Length: {len(text)}\r\nConnection: close\r\n\r\n{text}".encode())
            await writer.drain()
        except (asyncio.IncompleteReadError, asyncio.LimitOverrunError, ConnectionError) as error:
            logging.info("a request that is none: %s", error)
        finally:
            writer.close()

    ending = asyncio.Event()
    for number in (signal.SIGTERM, signal.SIGINT):
        asyncio.get_running_loop().add_signal_handler(number, ending.set)
    async with AsyncProducer(addresses, topic, max_block=5) as producer:
        server = await asyncio.start_server(serve, "127.0.0.1", int(port))
        print(f"listening at 127.0.0.1:{server.sockets[0].getsockname()[1]}", flush=True)
        await ending.wait()
        server.close()


asyncio.run(main(*sys.argv[1:]))
