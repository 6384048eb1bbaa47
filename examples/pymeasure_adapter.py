"""An adapter of PyMeasure over HiSLIP, with service requests and locks, for a driver of its kind:

    supply = MySupply(HislipAdapter("TCPIP::127.0.0.1::hislip0::INSTR"))

Needs PyMeasure 0.11 or later (tried: 0.14.0 of Debian 13). Run as a program it sets and measures output 1:
    python3 pymeasure_adapter.py [RESOURCE]
"""
import sys

import psu_path  # noqa: F401  (finds ../python)
from psu import Instrument
from pymeasure.adapters import Adapter


class HislipAdapter(Adapter):
    """Passes on what an instrument of PyMeasure writes and reads; `connection` is the session, for all it has beside."""

    def __init__(self, resource, timeout=5.0, check_errors=False, **kwargs):
        super().__init__(**kwargs)
        self.connection = Instrument.open(resource, timeout, check_errors)
        self._unread = b""  # of a response that is read in parts

    def close(self):
        super().close()
        self.connection.close()

    def wait_for_srq(self, timeout=25):
        """Waits for a service request; returns its status byte."""
        return self.connection.wait_for_service_request(timeout)

    def flush_read_buffer(self):
        self._unread = b""
        self.connection.clear()

    def _write(self, command, **kwargs):
        self.connection.write(command)

    def _write_bytes(self, content, **kwargs):
        self.connection.write_bytes(content)

    def _read(self, **kwargs):
        return self._read_bytes(-1, False).decode().rstrip("\n")

    def _read_bytes(self, count, break_on_termchar, **kwargs):
        content = self._unread or self.connection.read_bytes()
        end = len(content) if count < 0 else count
        if break_on_termchar and b"\n" in content[:end]:
            end = content.index(b"\n") + 1
        self._unread = content[end:]
        return content[:end]


def main(resource="TCPIP::127.0.0.1::hislip0::INSTR"):
    from pymeasure.instruments import Instrument as Driver

    class Supply(Driver):
        voltage = Driver.control("VOLT?", "VOLT %g", "The voltage of output 1 in volts.")
        measured = Driver.measurement("MEAS:VOLT?", "The voltage at the output in volts.")

    supply = Supply(HislipAdapter(resource), "a supply", includeSCPI=False)
    supply.voltage = 5.25
    print(supply.voltage, supply.measured)
    supply.adapter.close()


if __name__ == "__main__":
    main(*sys.argv[1:])
