"""Tests of the adapter of PyMeasure, where PyMeasure is: python3 -m pytest test_pymeasure_adapter.py"""
import pytest

pymeasure = pytest.importorskip("pymeasure")
if tuple(int(it) for it in pymeasure.__version__.split(".")[:2]) < (0, 11):
    pytest.skip("this PyMeasure has adapters of another form", allow_module_level=True)

import pymeasure_adapter  # noqa: E402
from psu import InstrumentError  # noqa: E402


@pytest.fixture
def adapter(server):
    it = pymeasure_adapter.HislipAdapter(server.resource, check_errors=True)
    yield it
    it.close()


def test_a_driver(server, capsys):
    pymeasure_adapter.main(server.resource)
    assert capsys.readouterr().out == "5.25 0.0\n"


def test_texts_and_bytes(adapter):
    adapter.write("VOLT 5;VOLT?")
    assert adapter.read() == "5.000"
    adapter.write_bytes(b'MMEM:DATA "a",#15a\nb\nc\n')
    adapter.write('MMEM:DATA? "a"')
    assert (adapter.read_bytes(3), adapter.read_bytes(4, True), adapter.read_bytes(-1)) == (b"#15", b"a\n", b"b\nc\n")


def test_errors_requests_and_locks(adapter, connect):
    with pytest.raises(InstrumentError, match="-222"):
        adapter.write("VOLT 99")
    adapter.write("*CLS;*ESE 1;*SRE 32;*OPC")
    assert adapter.wait_for_srq(5) & 96 == 96
    with adapter.connection.locked():
        assert connect().lock_info().is_exclusive


def test_a_flush(adapter):
    adapter.write("VOLT?")
    adapter.flush_read_buffer()
    adapter.write("CURR?")
    assert adapter.read() == "0.000"
