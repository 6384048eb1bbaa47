"""Tests of `Server`: ports, restarts on the same image, and what it says of a server that does not start."""
import os
import signal
import socket

import psu.server
import pytest
from psu import Server, ServerNotStarted
from psu.server import free_port


@pytest.fixture
def taken_port():
    """A port that another program has."""
    with socket.create_server(("127.0.0.1", 0)) as it:
        yield it.getsockname()[1]


def name_of(server):
    with server.connect() as supply:
        return supply.query("*IDN?")


def test_a_temporary_image_is_removed():
    with Server() as server:
        folder = os.path.dirname(server.image)
        assert name_of(server) == "EXAMPLE,PSU4,0,1.0"
        assert server.resource == f"TCPIP::127.0.0.1::hislip0,{server.port}::INSTR"
    assert not os.path.exists(folder)


def test_a_port_that_is_given(tmp_path):
    port = free_port()
    with Server(tmp_path / "bench.psu", port=port) as server:
        assert server.port == port
        server.restart()
        assert server.port == port
        assert name_of(server) == "EXAMPLE,PSU4,0,1.0"


def test_a_given_port_that_is_taken(tmp_path, taken_port):
    server = Server(tmp_path / "bench.psu", port=taken_port)
    with pytest.raises(ServerNotStarted, match="psu: network fault"):
        server.start()
    server.close()


def test_another_port_is_tried_where_one_is_taken(tmp_path, taken_port, monkeypatch):
    ports = [taken_port, taken_port, free_port()]
    monkeypatch.setattr(psu.server, "free_port", lambda: ports.pop(0))
    with Server(tmp_path / "bench.psu") as server:
        assert server.port != taken_port
        assert name_of(server) == "EXAMPLE,PSU4,0,1.0"


def test_a_restart_has_the_same_image_and_port(server):
    port = server.port
    with server.connect() as supply:
        assert supply.query("VOLT 7;*SAV 3;*OPC?") == "1"
        server.restart()
        with pytest.raises(ConnectionError):
            supply.query("*IDN?")
    assert server.port == port
    with server.connect() as supply:
        assert supply.query("*RCL 3;VOLT?") == "7.000"


def test_a_restart_at_another_port_where_the_old_one_was_taken(server):
    server.kill()
    with socket.socket() as other:
        other.setsockopt(socket.SOL_SOCKET, socket.SO_REUSEADDR, 1)
        other.bind(("127.0.0.1", server.port))
        other.listen()
        taken = server.port
        server.start()
        assert server.port != taken
        assert name_of(server) == "EXAMPLE,PSU4,0,1.0"


def test_wait_returns_the_exit_status(server):
    os.kill(server.process.pid, signal.SIGKILL)
    assert server.wait(10) == -signal.SIGKILL
    assert not server.is_running
    server.start()
    assert server.is_running


def test_what_the_server_says_where_it_does_not_start(tmp_path):
    image = tmp_path / "bench.psu"
    image.write_bytes(b"no image")
    server = Server(image)
    with pytest.raises(ServerNotStarted, match="psu: no root"):
        server.start()
    server.close()


def test_one_image_has_one_server(server):
    second = Server(server.image)
    with pytest.raises(ServerNotStarted, match="psu: device fault"):
        second.start()
    second.close()
    with pytest.raises(ServerNotStarted, match="runs already"):
        server.start()


def test_messages_of_standard_error(server):
    os.remove(server.image)
    with server.connect(check_errors=True) as supply:
        with pytest.raises(psu.InstrumentError, match="-320"):
            supply.query("*SAV 1;*OPC?", timeout=1)
    server.wait_for_message("psu: store broken\n")
    with pytest.raises(psu.Timeout, match="did not say 'psu: store reopened' in 0.1 s"):
        server.wait_for_message("psu: store reopened", timeout=0.1)
