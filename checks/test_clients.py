"""The packages of clients/ over a server, by their own script, and by the Python of the checks."""
import sys

from programs import TOP, run

GROUP = "servers"


def test_clients():
    status, out, error = run([sys.executable, f"{TOP}/clients/run"], limit=600)
    print(out)
    assert status == 0, error
