"""Stores, scripts and expectations that the tests of the client share: tests/python_client.py runs them."""
import os
import uuid
from contextlib import contextmanager

from regtx import Store
from scratch import expect

ID = uuid.UUID("00112233-4455-6677-8899-aabbccddeeff")


@contextmanager
def store_of(program, folder, hives=1, path=None, **given):
    """A new store, and a run on it by the program or by another one."""
    Store.create(program.at(folder), ID, hives, program.path)
    with Store(program.at(folder), path or program.path, **given) as store:
        yield store


def script(program, folder, *lines):
    """What a script prints by itself, without the client."""
    name = program.put("script", "".join(f"{line}\n" for line in lines).encode())
    return program.run("run", folder, name)[0].decode().splitlines()


def wrapper(program, name, text):
    """A program that a shell makes of the real one."""
    path = program.at(program.put(name, f"#!/bin/sh\nprogram='{program.path}' home='{program.home}'\n{text}\n".encode()))
    os.chmod(path, 0o755)
    return path


def raised(call):
    """What a call raises."""
    try:
        call()
    except Exception as error:  # noqa: BLE001
        return error
    return None


def expect_error(title, call, kind, text=None):
    """What is wrong with the error of a call: its class, and its text from its beginning."""
    error = raised(call)
    found = type(error), str(error)[:len(text)] if text else None
    return expect(title, found, (kind, text))


def leave(store, error):
    """A transaction whose scope is left by an error."""
    with store.transaction() as t:
        t.create_key("0:Left")
        if error:
            raise error
        t.get_value("0:Left", "none")
