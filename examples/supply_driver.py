"""A small driver of the supply, over the package's client: what a driver does about errors, timeouts and lost connections."""
import psu_path  # noqa: F401  (finds ../python)
from psu import Instrument


class Supply:
    """Output 1 of a supply. Every method raises what the package `psu` raises, or ValueError for no number."""

    def __init__(self, resource, timeout=5.0):
        self._resource, self._timeout = resource, timeout
        self.connect()

    def connect(self):
        # Each refused message raises at once.
        self.session = Instrument.open(self._resource, self._timeout, check_errors=True)

    def close(self):
        self.session.close()

    @property
    def voltage(self):
        """The set voltage in volts."""
        return float(self.session.query("VOLT?"))

    @voltage.setter
    def voltage(self, volts):
        self.session.write(f"VOLT {volts}")

    def save(self, register):
        """Saves the settings, and returns once they are on the disk."""
        if self.session.query(f"*SAV {register};*OPC?") != "1":
            raise ValueError("the save was not confirmed")

    def recover(self):
        """Makes the driver usable after an exception: by a device clear, else by another connection."""
        try:
            self.session.clear()
        except (OSError, RuntimeError):
            self.session.close()
            self.connect()
        self.session.errors()
