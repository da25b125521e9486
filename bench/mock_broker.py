"""librdkafka's mock broker, in a kcat that sends nothing."""
from __future__ import annotations

import re
import shutil
import subprocess
import sys
import tempfile
import time


class Broker:
    """The broker, which ends with the kcat's input. What it tells of itself goes into a file, since nobody reads it while lines
    are sent."""

    def __init__(self) -> None:
        if shutil.which("kcat") is None:
            sys.exit(f"{sys.argv[0]}: kcat is not installed")
        self.told = tempfile.NamedTemporaryFile()
        words = ["kcat", "-P", "-b", "none", "-t", "none", "-X", "test.mock.num.brokers=1", "-X", "debug=mock"]
        self.process = subprocess.Popen(words, stdin=subprocess.PIPE, stdout=subprocess.DEVNULL, stderr=self.told)
        address = None
        while address is None:
            if self.process.poll() is not None:
                sys.exit(f"{sys.argv[0]}: kcat's broker does not say where it is")
            time.sleep(0.01)
            with open(self.told.name, "rb") as told:
                address = re.search(rb"bootstrap\.servers=(127\.0\.0\.1:\d+)\n", told.read())
        self.address = address[1].decode()

    def end(self) -> None:
        self.process.communicate()
        self.told.close()
