"""A program of a site that runs from its start to the end of a `with`."""

import socket
import time


class Started:
    """It has a `start`, a `wait`, until it answers, and an `end`, which comes also where it never did."""

    def __enter__(self):
        self.start()
        try:
            self.wait()
        except BaseException:
            self.end()
            raise
        return self

    def __exit__(self, *_):
        self.end()


def free_port():
    with socket.socket() as probe:
        probe.bind(("127.0.0.1", 0))
        return probe.getsockname()[1]


def wait_for_port(port, seconds, log):
    """Until something listens at that port of this machine; a failure says what the log has."""
    until = time.monotonic() + seconds
    while time.monotonic() < until:
        with socket.socket() as probe:
            if probe.connect_ex(("127.0.0.1", port)) == 0:
                return
        time.sleep(0.1)
    raise RuntimeError(f"nothing listens at port {port}: {log()[-500:]}")
