"""The package's tests: ``python3 -m unittest`` in bindings/python."""

import signal

# Started in the background, this process would ignore Control-C, and so would all that the tests start and interrupt.
signal.signal(signal.SIGINT, signal.default_int_handler)
