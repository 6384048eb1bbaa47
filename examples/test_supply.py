"""Tests of the instrument over HiSLIP: the recipes of the programmer's guide, what survives a kill, and the protocol.

Needs pytest and the program `psu` (conftest.py says where it is looked for): python3 -m pytest test_supply.py
Prints what pytest prints: one dot a test. Each test has a server of its own.
"""
import threading
import time

import pytest

import psu_path  # noqa: F401  (finds ../python)
from psu import FatalError, LockError, LockRefusal, ServerError, Timeout
from psu.frames import Frame

QUES, MAV, ESB, RQS = 0x08, 0x10, 0x20, 0x40  # bits of the status byte
NO_ERROR = '0,"No error"'
LOCKED_OUT = 0.3  # seconds that a message certainly waits while another session holds the lock


def errors_of(supply):
    """Reads the error queue until it is empty."""
    errors = []
    while True:
        error = supply.query("SYST:ERR?")
        if error == NO_ERROR:
            return errors
        errors.append(error)


def in_thread(work, *arguments):
    """Starts a thread; its result is in the list that `wait` returns."""
    results = []
    thread = threading.Thread(target=lambda: results.append(work(*arguments)), daemon=True)
    thread.start()

    def wait():
        thread.join(10)
        return results

    return thread, wait


# Recipes


def test_initialise_and_check_errors(supply):
    supply.write("*RST;*CLS")
    assert supply.query("*IDN?") == "EXAMPLE,PSU4,0,1.0"
    supply.write("VOLT 5;:CURR 1;:OUTP ON")
    assert errors_of(supply) == []
    supply.write("VOLT 99;:OUTP5 ON")
    assert errors_of(supply) == ['-222,"Data out of range"', '-114,"Header suffix out of range"']
    # Later *ESR? alone is enough: bit 4 for an error -2xx, bit 5 for one of -1xx. It clears what it reads.
    assert supply.query("*ESR?") == "48"
    assert supply.query("*ESR?;:MEAS:VOLT?") == "0;5.000"


def test_service_request_on_operation_complete(supply):
    supply.write("*CLS;*ESE 1;*SRE 32")
    supply.write("*SAV 1;*OPC")
    assert supply.wait_for_service_request(5) & (RQS | ESB) == RQS | ESB
    assert supply.read_stb() & (RQS | ESB) == RQS | ESB
    assert supply.query("*ESR?") == "1"
    # Reading the status byte cleared RQS, and reading the register cleared the bit that it shows.
    assert supply.read_stb() & (RQS | ESB) == 0


def test_no_further_request_while_rqs_is_set(supply):
    supply.write("*CLS;*ESE 32;*SRE 40;:STAT:QUES:ENAB 2")
    supply.write("FOO")
    supply.wait_for_service_request(5)
    # A second enabled bit rises: the output is in current limit. RQS is set, so no further request comes.
    supply.write("VOLT 5;:OUTP ON")
    with pytest.raises(Timeout):
        supply.wait_for_service_request(LOCKED_OUT)
    assert supply.read_stb() & (RQS | ESB | QUES) == RQS | ESB | QUES
    # The status byte was read, so the next bit that rises asks again.
    assert supply.query("STAT:QUES?") == "2"
    supply.write("CURR 1;:CURR 0")
    assert supply.wait_for_service_request(5) & QUES


def test_each_session_gets_the_request(supply, connect):
    other = connect()
    supply.write("*CLS;*ESE 32;*SRE 32;FOO")
    for session in (supply, other):
        session.wait_for_service_request(5)
        assert session.read_stb() & RQS
    # The registers are one set for all: what one session reads and so clears, another finds cleared.
    assert supply.query("*ESR?") == "32"
    assert other.query("*ESR?") == "0"


def test_recover_from_a_timeout_by_device_clear(supply, connect):
    blocker = connect()
    blocker.lock(1)
    supply.timeout = LOCKED_OUT
    with pytest.raises(Timeout):
        supply.query("VOLT 7;VOLT?")
    supply.clear()
    blocker.unlock()
    # The message that waited was discarded: it set nothing, and its response is not read later.
    assert supply.query("VOLT?") == "0.000"
    assert errors_of(supply) == []


def test_a_late_response_is_not_taken_for_the_next(supply, connect):
    blocker = connect()
    blocker.lock(1)
    supply.timeout = LOCKED_OUT
    with pytest.raises(Timeout):
        supply.query("*IDN?")
    blocker.unlock()
    supply.timeout = 5
    # By its MessageID the client sees that the response to *IDN? is not the one to this query.
    assert supply.query("VOLT?") == "0.000"


def test_clients_share_with_a_lock_around_command_and_check(server, connect):
    faults = {
        "VOLT 99": '-222,"Data out of range"',
        "FOO": '-113,"Undefined header"',
        "VOLT 1,2": '-108,"Parameter not allowed"',
        "VOLT": '-109,"Missing parameter"',
    }
    seen = []

    def check(supply, command):
        for _ in range(10):
            with supply.locked():
                supply.write(command)
                seen.append((command, supply.query("SYST:ERR?")))
        return True

    started = [in_thread(check, connect(), command) for command in faults]
    assert all(wait() == [True] for _, wait in started)
    assert len(seen) == 40
    assert all(error == faults[command] for command, error in seen)


def test_an_exclusive_lock_makes_another_session_wait(supply, connect):
    other = connect()
    supply.lock(1)
    assert other.lock_info() == (True, 1)
    thread, wait = in_thread(other.query, "VOLT 3;VOLT?")
    time.sleep(LOCKED_OUT)
    assert thread.is_alive()
    assert supply.query("VOLT?") == "0.000"
    supply.unlock()
    assert wait() == ["3.000"]


def test_a_shared_lock_admits_those_with_the_same_key(supply, connect):
    friend, stranger = connect(), connect(LOCKED_OUT)
    supply.lock(1, "bench")
    friend.lock(1, "bench")
    assert stranger.lock_info() == (False, 2)
    with pytest.raises(Timeout):
        stranger.lock(0, "other")
    with pytest.raises(LockError) as refused:
        friend.lock(1, "bench")
    assert refused.value.reason == LockRefusal.SHARED_HELD
    assert friend.query("VOLT 2;VOLT?") == supply.query("VOLT?") == "2.000"
    with pytest.raises(Timeout):
        stranger.query("VOLT?")
    supply.unlock()
    friend.unlock()
    assert stranger.lock_info() == (False, 0)
    with pytest.raises(LockError) as refused:
        friend.unlock()
    assert refused.value.reason == LockRefusal.NONE_HELD


def test_a_lock_ends_with_its_session(supply, connect):
    other = connect()
    other.lock(1)
    other.close()
    supply.lock(5)
    assert supply.lock_info() == (True, 1)


def test_over_voltage_step_by_step(supply):
    supply.write("*RST;*CLS")
    # Bit 0 of the QUEStionable condition, an output is tripped, becomes bit 3 of the status byte and asks for service.
    supply.write("STAT:QUES:ENAB 1;*SRE 8")
    supply.write("VOLT:PROT 5;:VOLT:PROT:STAT ON;:CURR 1;:VOLT 4;:OUTP ON")
    assert supply.query("MEAS:VOLT?;:VOLT:PROT:TRIP?") == "4.000;0"
    supply.write("VOLT 6")
    assert supply.wait_for_service_request(5) & (RQS | QUES) == RQS | QUES
    assert supply.read_stb() & QUES
    assert supply.query("STAT:QUES?;:OUTP?;:VOLT:PROT:TRIP?") == "1;0;1"
    # A tripped output can't be switched on. Remove the cause, clear the trip, and switch it on.
    assert supply.query("OUTP ON;:SYST:ERR?") == '-221,"Settings conflict"'
    supply.write("VOLT 4;:VOLT:PROT:CLE;:OUTP ON")
    assert supply.query("OUTP?;:MEAS:VOLT?;:STAT:QUES:COND?") == "1;4.000;0"
    assert errors_of(supply) == []


# What survives the end of the server


def test_a_confirmed_state_is_there_after_a_kill(server):
    with server.connect() as supply:
        assert supply.query("VOLT 5.25;:CURR 0.5;*SAV 1;*OPC?") == "1"
        server.kill()
    server.start()
    with server.connect() as supply:
        assert supply.query("VOLT?;*RCL 1;VOLT?;:CURR?") == "0.000;5.250;0.500"


def test_settings_come_back_at_power_on_where_register_0_is_chosen(server):
    with server.connect() as supply:
        assert supply.query("VOLT 5;:CURR 1;:OUTP ON;*SAV 0;:OUTP:PON:STAT RCL0;*OPC?") == "1"
        server.kill()
    server.start()
    with server.connect() as supply:
        assert supply.query("OUTP?;:MEAS:VOLT?;*ESR?") == "1;5.000;128"


def test_enable_registers_come_back_and_ask_for_service(server):
    with server.connect() as supply:
        assert supply.query("*PSC 0;*SRE 32;*ESE 128;*OPC?") == "1"
        server.kill()
    server.start()
    with server.connect() as supply:
        assert supply.wait_for_service_request(5) & (RQS | ESB) == RQS | ESB


def test_macros_user_data_and_files_come_back(server):
    with server.connect() as supply:
        supply.write_block('*DMC "SETV",', b"VOLT $1;:OUTP ON")
        supply.write_block("DIAG:PUD:PROT OFF;*PUD ", b"bench 3")
        supply.write_block('MMEM:DATA "notes",', b"two\nlines")
        assert supply.query("*OPC?") == "1"
        server.kill()
    server.start()
    with server.connect() as supply:
        assert supply.query("*EMC 1;SETV 3;VOLT?") == "3.000"
        assert supply.query_block("*PUD?") == b"bench 3"
        assert supply.query_block('MMEM:DATA? "notes"') == b"two\nlines"


# The protocol


def test_a_block_of_any_bytes_in_both_directions(supply):
    data = bytes(range(256)) * 128
    supply.write_block('MMEM:DATA "bytes",', data)
    assert supply.query_block('MMEM:DATA? "bytes"') == data
    assert errors_of(supply) == []


def test_a_message_of_many_parts(supply):
    data = bytes(range(256)) * 128
    supply._messages.room = 100
    supply.write_block('MMEM:DATA "bytes",', data)
    assert supply.query_block('MMEM:DATA? "bytes"') == data


def test_message_available_ends_with_the_response(supply):
    supply.write("*CLS")
    supply.write("*IDN?")
    wait_until(lambda: supply.read_stb() & MAV)
    assert supply.read() == "EXAMPLE,PSU4,0,1.0"
    # The status query says RMT-delivered: the response was read whole.
    assert supply.read_stb() & MAV == 0


def wait_until(holds):
    deadline = time.monotonic() + 5
    while not holds():
        assert time.monotonic() < deadline
        time.sleep(0.01)


def test_message_ids_wrap(supply):
    supply._messages._next_id = 0xFFFF_FFFE
    assert [supply.query("*OPC?") for _ in range(3)] == ["1"] * 3


def test_clear_discards_unread_responses(supply):
    supply.write_block('MMEM:DATA "bytes",', bytes(32768))
    supply.write(";".join([':MMEM:DATA? "bytes"'] * 100))
    supply.write("*IDN?")
    supply.clear()
    assert supply.query("VOLT 1;VOLT?") == "1.000"


def test_an_error_of_the_server_leaves_the_session_usable(supply):
    supply._messages.send(Frame(200), 5)  # a message type of a vendor, which the server does not have
    with pytest.raises(ServerError) as error:
        supply.query("*OPC?")
    assert error.value.code == 3
    assert supply.read() == "1"


def test_a_seventeenth_session_is_refused(connect):
    sessions = [connect() for _ in range(16)]
    with pytest.raises(FatalError) as error:
        connect()
    assert error.value.code == 4
    assert all(it.query("*OPC?") == "1" for it in sessions)
    sessions[0].close()
    wait_until(lambda: is_admitted(connect))


def is_admitted(connect):
    try:
        return connect().query("*OPC?") == "1"
    except FatalError:
        return False


def test_nothing_listens(server):
    server.kill()
    with pytest.raises(ConnectionRefusedError, match="nothing listens on 127.0.0.1"):
        server.connect()
