"""A session over VISA: measures, saves and confirms, a block, a device clear, status byte, service request, lock.

Needs PyVISA, a VISA library that has HiSLIP, and a server on 127.0.0.1 (psu serve IMAGE):
    python3 visa.py [--library LIBRARY] [RESOURCE]
RESOURCE is TCPIP::127.0.0.1::hislip0::INSTR; at another port for example TCPIP::127.0.0.1::hislip0,4881::INSTR.
LIBRARY is what pyvisa.ResourceManager takes, as @py for PyVISA-py.
Prints a line for each step: what it read, or `not in this VISA library`, after which the next step follows. The exit
status is 0 where every step that the library has gave what the instrument should.
PyVISA-py 0.7.2 has HiSLIP without service requests, status byte (read_stb) and locks. Its next open or clear raises a
RuntimeError where a service request arrived, so keep *SRE 0 with it, in every session.
The steps set output 1, its load and register 1.
"""
import argparse
import sys

try:
    import pyvisa
except ImportError:
    pyvisa = None  # --help is answered without it

RESOURCE = "TCPIP::127.0.0.1::hislip0::INSTR"
REQUESTED = 0x40  # bit 6 of the status byte, RQS
EVENT = 0x20  # bit 5, a bit of the event status register that *ESE enables
BYTES = bytes(range(256)) * 128  # a file of 32,768 bytes, the largest, with line feeds in it


class Unexpected(Exception):
    """A step that the library has read something else than the instrument should answer."""


def expect(read, expected):
    if read != expected:
        raise Unexpected(f"read {read!r} where {expected!r} is right")
    return read


def set_up(instrument):
    # A response ends with a line feed. A carriage return before it would belong to a block of no definite length.
    instrument.read_termination = "\n"
    instrument.write_termination = "\n"
    # *OPC? waits for the disk, and any message waits while another session holds a lock.
    instrument.timeout = 5000


def name(instrument):
    return instrument.query("*IDN?")


def measure(instrument):
    instrument.write("*RST;*CLS;:SIM:LOAD 10000;:VOLT 5.25;:CURR 0.5;:OUTP ON")
    return expect(instrument.query("MEAS:VOLT?;:MEAS:CURR?"), "5.000;0.500")


def save(instrument):
    return "*SAV 1;*OPC? -> " + expect(instrument.query("*SAV 1;*OPC?"), "1")


def block(instrument):
    # Blocks are read by query_binary_values alone: a raw read would end at the first byte 10 of the block.
    instrument.write_binary_values('MMEM:DATA "visa",', BYTES, datatype="B")
    read = instrument.query_binary_values('MMEM:DATA? "visa"', datatype="B", container=bytes)
    instrument.write('MMEM:DEL "visa"')
    if read != BYTES:
        raise Unexpected("a block came back with other bytes")
    return f"{len(read)} bytes written and read"


def clear(instrument):
    instrument.clear()
    return "cleared; next query: " + expect(instrument.query("*OPC?"), "1")


def status_byte(instrument):
    instrument.write("*CLS")
    return expect(instrument.read_stb() & EVENT, 0)


def service_request(instrument):
    """Operation complete as a service request: the instrument asks once the saved state is on the disk."""
    event, queue = pyvisa.constants.EventType.service_request, pyvisa.constants.EventMechanism.queue
    instrument.enable_event(event, queue)
    try:
        instrument.write("*CLS;*ESE 1;*SRE 32;*SAV 1;*OPC")
        instrument.wait_on_event(event, 5000)
        expect(instrument.read_stb() & (REQUESTED | EVENT), REQUESTED | EVENT)
        return "came; *ESR? -> " + expect(instrument.query("*ESR?"), "1")
    finally:
        instrument.write("*SRE 0;*ESE 0")
        instrument.disable_event(event, queue)


def lock(instrument):
    with instrument.lock_context(5000):
        return "held; *OPC? -> " + expect(instrument.query("*OPC?"), "1")


STEPS = (name, measure, save, block, clear, status_byte, service_request, lock)


def is_lacking(fault):
    """Whether a fault says that the VISA library does not have the operation."""
    if isinstance(fault, pyvisa.VisaIOError):
        return fault.error_code == pyvisa.constants.StatusCode.error_nonsupported_operation
    return isinstance(fault, NotImplementedError)


def result_of(step, instrument):
    try:
        return step(instrument)
    except (pyvisa.VisaIOError, NotImplementedError) as fault:
        if is_lacking(fault):
            return "not in this VISA library"
        raise


def arguments():
    form = argparse.RawDescriptionHelpFormatter
    parser = argparse.ArgumentParser(description=__doc__, formatter_class=form)
    parser.add_argument("--library", default="", help="the VISA library; by default the one that PyVISA finds")
    parser.add_argument("resource", nargs="?", default=RESOURCE, metavar="RESOURCE")
    return parser.parse_args()


def take_steps(words):
    manager = pyvisa.ResourceManager(words.library)
    print(f"PyVISA {pyvisa.__version__}, library {manager.visalib}")
    instrument = manager.open_resource(words.resource)
    try:
        set_up(instrument)
        for step in STEPS:
            print(f"{step.__name__.replace('_', ' ')}: {result_of(step, instrument)}")
    finally:
        instrument.close()


def main():
    words = arguments()
    if pyvisa is None:
        return "visa.py: PyVISA is not installed (on Debian: apt-get install python3-pyvisa-py)"
    try:
        return take_steps(words)
    except (pyvisa.Error, OSError, ValueError, RuntimeError, Unexpected) as fault:
        return f"visa.py: {words.resource}: {fault}"


if __name__ == "__main__":
    sys.exit(main())
