"""Starts and stops a server program for a test: `psu serve` over an image, at a port of its own.

    with Server() as server, server.connect() as supply:
        print(supply.query("*IDN?"))
"""
from __future__ import annotations

import atexit
import contextlib
import os
import select
import shutil
import signal
import socket
import subprocess
import tempfile
import time
from typing import IO, TYPE_CHECKING, Dict, Iterable, List, Optional, TextIO, Union

from .build_note import packaged_program
from .client import Instrument
from .errors import ServerNotStarted, Timeout

if TYPE_CHECKING:
    from .relay import Relay
    from .relay_rules import RuleText

# In a clone of the repository the program is built there.
BUILT = os.path.join(os.path.dirname(os.path.abspath(__file__)), "..", "..", "crates", "psu", "out", "psu")
START_TIMEOUT = 30.0  # seconds in which the server says that it listens
TRIES = 20  # of free ports
PORT_TAKEN = "psu: network fault"


def find_program() -> str:
    """Returns the path of `psu`: that of the variable PSU, else that of this package, of this clone, or of the PATH."""
    named = os.environ.get("PSU")
    paths: List[Optional[str]] = [named] if named else [packaged_program(), os.path.normpath(BUILT), shutil.which("psu")]
    for path in paths:
        if path and os.path.isfile(path) and os.access(path, os.X_OK):
            return path
    missing = f"PSU names {named}" if named else "neither this package nor the PATH has one"
    raise FileNotFoundError(f"set PSU to the path of the program psu: {missing} (in a clone ./psu builds it)")


def free_port() -> int:
    """Returns a port that nothing has at this moment; another program may take it before its use."""
    with socket.socket() as it:
        it.bind(("127.0.0.1", 0))
        port: int = it.getsockname()[1]
        return port


class Lifeline:
    """What ends a server process together with this one, however this one ends: by SIGKILL or `os._exit` too.

    The server inherits the far end of a pair of sockets, which it does not read. Once no process has the near end any
    more, the kernel sends the server a SIGKILL. Until the kernel has been asked for that, a shell waits at the gate in its place.
    """

    WAITING = ("/bin/sh", "-c", 'read _ && exec "$0" "$@" < /dev/null')

    def __init__(self) -> None:
        self._near, self.far = socket.socketpair()
        self._go, self.gate = socket.socketpair()

    def tie(self, process: int) -> None:
        """Names the process that is to end, and lets it begin."""
        import fcntl  # which Windows does not have, where there is no server either

        file = self.far.fileno()
        # A kernel that lacks it (some sandboxes) is no reason not to start: then a server may outlive a killed process.
        with contextlib.suppress(OSError):
            fcntl.fcntl(file, fcntl.F_SETOWN, process)
            fcntl.fcntl(file, fcntl.F_SETSIG, signal.SIGKILL)
            fcntl.fcntl(file, fcntl.F_SETFL, fcntl.fcntl(file, fcntl.F_GETFL) | os.O_ASYNC)
        with contextlib.suppress(ConnectionError):  # it has ended already
            self._go.sendall(b"\n")
        for it in (self.far, self._go, self.gate):
            it.close()

    def close(self) -> None:
        for it in (self._near, self.far, self._go, self.gate):
            it.close()


class Server:
    """A server process over an image, which ends at the latest when this process does.

    `image` is made where it is missing; without one the image is a temporary file, kept until `close` or the end of the
    `with` block. Without `port` it is a free one: another is tried where a program takes it first, and a restart uses
    the same one again where it is still free. `environment` has variables beside those of this process.
    """

    def __init__(
        self, image: Union[str, "os.PathLike[str]", None] = None, program: Optional[str] = None,
        port: Optional[int] = None, environment: Optional[Dict[str, str]] = None
    ) -> None:
        self.program = program or find_program()
        self._folder: Optional[str] = None
        if image is None:
            self._folder = tempfile.mkdtemp(prefix="psu-")
            image = os.path.join(self._folder, "bench.psu")
        self.image = os.fspath(image)
        self.relay: Optional[Relay] = None
        self._port = port
        self.process: Optional[subprocess.Popen[str]] = None
        self._is_port_given = port is not None
        self._environment = {**os.environ, **(environment or {})}
        self._messages: Optional[IO[bytes]] = None
        self._lifeline: Optional[Lifeline] = None
        atexit.register(self.close)

    def __enter__(self) -> Server:
        try:
            self.start()
        except BaseException:
            self.close()
            raise
        return self

    def __exit__(self, *_: object) -> None:
        self.close()

    def __repr__(self) -> str:
        state = f"at 127.0.0.1:{self.port}" if self.is_running else "not running"
        return f"<Server {self.image}, {state}>"

    @property
    def is_running(self) -> bool:
        """Whether the process runs."""
        return self.process is not None and self.process.poll() is None

    @property
    def port(self) -> Optional[int]:
        """Where clients connect: the server's port, or that of the relay before it."""
        return self._port if self.relay is None else self.relay.port

    @property
    def resource(self) -> str:
        """The resource string of VISA."""
        return f"TCPIP::127.0.0.1::hislip0,{self.port}::INSTR"

    def start(self) -> None:
        """Starts the server, and returns once it takes connections."""
        if self.is_running:
            raise ServerNotStarted(f"it runs already, at port {self.port}")
        self._end_by(signal.SIGKILL)  # what is left of a process that ended by itself
        if not os.path.exists(self.image):
            self._make_image()
        if self._is_port_given:
            self._start_at(self._port)
        else:
            self._start_at_a_free_port()

    def put_relay(self, rules: "Iterable[RuleText]" = (), log: Optional[TextIO] = None) -> Relay:
        """Puts a relay with these rules before the server that runs, until `close`; `port` is the relay's from now on."""
        from .relay import Relay

        assert self.relay is None and self._port is not None, "the server was started, and has no relay yet"
        self.relay = Relay(self._port, rules, log).__enter__()
        return self.relay

    def connect(self, timeout: Optional[float] = 5.0, check_errors: bool = False) -> Instrument:
        """Returns a new session."""
        assert self.port is not None, "the server was started"
        return Instrument(port=self.port, timeout=timeout, check_errors=check_errors)

    def wait(self, timeout: Optional[float] = None) -> int:
        """Waits until the process has ended by itself and returns its exit status, as subprocess.Popen.wait."""
        assert self.process is not None, "the server was started"
        return self.process.wait(timeout)

    def stop(self) -> None:
        """Ends the process by SIGTERM. What *OPC? did not confirm may be lost, as with `kill`."""
        self._end_by(signal.SIGTERM)

    def kill(self) -> None:
        """Ends the process by SIGKILL, wherever it is in its work."""
        self._end_by(signal.SIGKILL)

    def restart(self) -> None:
        """Kills the process where it runs, and starts it again on the same image, at the same port where it is free."""
        self.kill()
        self.start()

    def close(self) -> None:
        """Ends the process; a temporary image is removed."""
        atexit.unregister(self.close)
        if self.relay is not None:
            self.relay.__exit__()
            self.relay = None
        self.stop()
        if self._messages is not None:
            self._messages.close()
            self._messages = None
        if self._folder is not None:
            shutil.rmtree(self._folder, ignore_errors=True)

    def messages(self) -> str:
        """Returns what the process wrote to standard error since its last start."""
        if self._messages is None:
            return ""
        size = os.fstat(self._messages.fileno()).st_size
        # The process writes at its own place in this file, which a read that moved it would change.
        return os.pread(self._messages.fileno(), size, 0).decode("utf-8", "replace")

    def wait_for_message(self, text: str, timeout: float = 10.0) -> None:
        """Waits until the process has written this to standard error, as `psu: store reopened`."""
        deadline = time.monotonic() + timeout
        while text not in self.messages():
            if time.monotonic() >= deadline:
                raise Timeout(f"the server did not say {text!r} in {timeout:g} s")
            time.sleep(0.02)

    def _make_image(self) -> None:
        try:
            command = [self.program, "make", self.image]
            made = subprocess.run(command, stderr=subprocess.PIPE, universal_newlines=True, env=self._environment)
        except OSError as fault:
            raise ServerNotStarted(f"{self.program} can't be run: {fault.strerror}") from None
        if made.returncode != 0:
            why = made.stderr.strip() or f"status {made.returncode}, without a message"
            raise ServerNotStarted(f"{self.program} make {self.image}: {why}")

    def _start_at_a_free_port(self) -> None:
        for _ in range(TRIES):
            self._port = self._port or free_port()
            try:
                return self._start_at(self._port)
            except ServerNotStarted as fault:
                # Another program took the port after it was looked for.
                if PORT_TAKEN not in str(fault):
                    raise
                self._port = None
        raise ServerNotStarted(f"{TRIES} free ports were taken by others before the server had them")

    def _start_at(self, port: Optional[int]) -> None:
        if self._messages is not None:
            self._messages.close()
        self._messages = tempfile.TemporaryFile()
        self._lifeline = Lifeline()
        process = subprocess.Popen(
            [*Lifeline.WAITING, self.program, "serve", self.image, "--port", str(port)], stdin=self._lifeline.gate.fileno(),
            stdout=subprocess.PIPE, stderr=self._messages, universal_newlines=True, env=self._environment,
            pass_fds=[self._lifeline.far.fileno()],
        )
        self.process = process
        self._lifeline.tie(process.pid)
        if self.relay is not None and port is not None:
            self.relay.to = port
        assert process.stdout is not None
        is_ready = select.select([process.stdout], [], [], START_TIMEOUT)[0]
        # The line comes once the server takes connections.
        if not is_ready or process.stdout.readline() != f"listening on 127.0.0.1:{port}\n":
            self._end_by(signal.SIGTERM)
            raise ServerNotStarted(self.messages().strip() or "the server ended or did not listen, without a message")

    def _end_by(self, number: int) -> None:
        if self.process is not None:
            with contextlib.suppress(ProcessLookupError):
                self.process.send_signal(number)
            self.process.wait()
            assert self.process.stdout is not None
            self.process.stdout.close()
            self.process = None
        if self._lifeline is not None:
            self._lifeline.close()
            self._lifeline = None
