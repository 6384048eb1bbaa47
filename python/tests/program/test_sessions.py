"""Tests of one session that several threads use, against the program."""
import contextlib
import threading
import time

import pytest
from psu import Cleared, InstrumentError, LockError, LockRefusal, SessionClosed, Timeout

WAITS = 10  # seconds, the longest wait of a test


def in_threads(*works):
    """Runs the functions each in a thread until all have returned; raises what one of them raised."""
    faults = []

    def kept(work):
        try:
            work()
        except Exception as fault:  # any fault of a thread is one of the test
            faults.append(fault)

    threads = [threading.Thread(target=kept, args=(it,), daemon=True) for it in works]
    for it in threads:
        it.start()
    for it in threads:
        it.join(3 * WAITS)
    assert not any(it.is_alive() for it in threads)
    if faults:
        raise faults[0]


@pytest.mark.parametrize("run", range(50))
def test_a_wait_for_service_requests_beside_status_queries(shared_server, run):
    """What one thread waits for and what another asks for come on one connection."""
    with shared_server.connect() as supply, shared_server.connect() as other:
        supply.query("*CLS;*ESE 32;*SRE 32;*OPC?")
        seen, done = [], threading.Event()

        def wait():
            try:
                while len(seen) < 10:
                    seen.append(supply.wait_for_service_request(WAITS))
            finally:
                done.set()

        def poll():
            while not done.is_set():
                supply.read_stb()
                supply.query("*ESR?")

        def cause():
            while not done.is_set():
                other.query("FOO;*OPC?")

        in_threads(wait, poll, cause)
        assert all(it & 0x40 for it in seen)


@pytest.fixture(scope="module")
def shared_server():
    from psu import Server

    with Server() as it:
        yield it


def test_threads_that_query_poll_and_lock(supply):
    def ask(n):
        for number in range(50):
            volts = f"{number}.{n}00"
            assert supply.query(f"SOUR{n}:VOLT {volts};VOLT?") == volts

    def poll():
        for _ in range(100):
            assert supply.read_stb() & 0x40 == 0
            assert supply.lock_info().holders <= 1

    def hold():
        for _ in range(20):
            with supply.locked():
                time.sleep(0.001)

    in_threads(*[lambda n=n: ask(n) for n in (1, 2, 3, 4)], poll, hold)


def test_a_callback_for_operation_complete(supply):
    came, seen = threading.Event(), []

    def called(status):
        seen.append((status, supply.read_stb(), supply.query("*ESR?")))
        came.set()

    supply.on_service_request(called)
    supply.write("*CLS;*ESE 1;*SRE 32;*SAV 1;*OPC")
    assert came.wait(WAITS)
    assert seen == [(0x60, 0x60, "1")]


def test_a_request_that_waits_refuses_another_of_the_session(supply, connect):
    other = connect()
    other.lock(1)
    waiting = threading.Thread(target=supply.lock, args=(WAITS,))
    waiting.start()
    deadline = time.monotonic() + WAITS
    while supply._lock_call.acquire(blocking=False):
        supply._lock_call.release()
        assert time.monotonic() < deadline
    with pytest.raises(LockError) as refused:
        supply.lock(0)
    assert refused.value.reason == LockRefusal.REQUEST_WAITS
    # Beside the request that waits, status queries are answered.
    assert supply.lock_info() == (True, 1)
    other.unlock()
    waiting.join(WAITS)
    assert not waiting.is_alive()
    with pytest.raises(LockError) as refused:
        supply.lock(0)
    assert refused.value.reason == LockRefusal.EXCLUSIVE_HELD


def test_a_close_wakes_what_waits(connect):
    holder, supply = connect(), connect(WAITS)
    holder.lock(1)
    faults = []

    def ask(call):
        try:
            call()
        except SessionClosed as fault:
            faults.append(str(fault))

    calls = (lambda: supply.query("VOLT?"), lambda: supply.lock(WAITS), lambda: supply.wait_for_service_request(WAITS))
    threads = [threading.Thread(target=ask, args=(it,)) for it in calls]
    for it in threads:
        it.start()
    time.sleep(0.3)
    supply.close()
    for it in threads:
        it.join(WAITS)
    assert faults == ["this client closed the session: close() was called"] * 3


def test_a_clear_ends_a_query_of_another_thread(supply, connect):
    with connect().locked():
        faults, began = [], time.monotonic()

        def ask():
            with pytest.raises(Cleared) as fault:
                supply.query("VOLT?", timeout=3 * WAITS)
            faults.append(fault)

        asking = threading.Thread(target=ask)
        asking.start()
        time.sleep(0.2)
        supply.clear()
        asking.join(WAITS)
        assert len(faults) == 1 and time.monotonic() - began < WAITS
    assert supply.query("VOLT?;:SYST:ERR?") == '0.000;0,"No error"'


def test_clears_beside_queries(supply):
    def ask():
        for number in range(30):
            with contextlib.suppress(Cleared):
                assert supply.query(f"*SRE {number};*SRE?") == f"{number}"

    in_threads(ask, lambda: [(supply.clear(), time.sleep(0.001)) for _ in range(20)])
    with pytest.raises(Timeout):
        supply.read(timeout=0.1)


def test_errors_are_raised_at_once(supply):
    supply.check_errors = True
    began = time.monotonic()
    with pytest.raises(InstrumentError, match=r'^FOO\?: -113,"Undefined header"$'):
        supply.query("FOO?")
    with pytest.raises(InstrumentError, match='^VOLT 99: -222,"Data out of range"$') as fault:
        supply.write("VOLT 99")
    assert fault.value.response is None
    with pytest.raises(InstrumentError, match="-222") as fault:
        supply.query("VOLT 99;VOLT?")
    assert fault.value.response == b"0.000"
    supply.write_block('MMEM:DATA "a",', b"abc")
    assert supply.query_block('MMEM:DATA? "a"') == b"abc"
    assert time.monotonic() - began < supply.timeout
