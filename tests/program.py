"""Running the program under test: a session in on standard input, what it printed out."""

import subprocess
import sys

SECONDS = 900  # far more than any session here needs; a program that hangs is a failure


def run(path, data, product="session"):
    """The bytes that the program prints for these bytes, and its exit status.

    A path that ends in .py is run by this Python, so that a model can stand in for the product;
    any other is a starter, which is asked to serve a session, or the session of another product.
    """
    words = [] if product == "session" else [product]
    command = [sys.executable, path, *words] if path.endswith(".py") else [path, product]
    done = subprocess.run(command, input=data, stdout=subprocess.PIPE, timeout=SECONDS)
    return done.stdout, done.returncode
