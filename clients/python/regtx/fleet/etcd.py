"""A client of etcd by its JSON gateway, which each node of etcd 3.4 or later has."""
from __future__ import annotations

import base64
import http.client
import json
import os
import random
import socket
import ssl
from dataclasses import dataclass
from typing import Any, Dict, Iterator, List, Optional, Sequence, Tuple

from ..errors import shown
from .errors import FleetError, Unavailable

Answer = Dict[str, Any]
PORT = 2379
# how long one step of a request may take, in seconds
STEP_SECONDS = 5.0
# codes of gRPC after which another node, or a later time, may answer: unknown, deadline, no room, aborted, internal, unavailable
PASSING = {2, 4, 8, 10, 13, 14}
UNAUTHENTICATED = 16
# after how many idle seconds the system asks whether the other side is there, how often, and up to how many times
KEEPALIVE = [(socket.TCP_KEEPIDLE, 10), (socket.TCP_KEEPINTVL, 5), (socket.TCP_KEEPCNT, 3)]


@dataclass(frozen=True)
class Access:
    """How etcd lets one in: its certificate authority, a certificate of one's own, a user and a password."""

    cacert: Optional[str] = None
    cert: Optional[str] = None
    key: Optional[str] = None
    user: Optional[str] = None
    password: str = ""

    def context(self) -> Optional[ssl.SSLContext]:
        """What TLS needs; None without it."""
        if not self.cacert and not self.cert:
            return None
        try:
            context = ssl.create_default_context(cafile=self.cacert)
            if self.cert:
                context.load_cert_chain(self.cert, self.key)
        except (OSError, ssl.SSLError) as why:
            raise FleetError(f"the certificates can't be used: {why}") from why
        return context


def encode(text: str) -> str:
    return base64.b64encode(text.encode()).decode()


def decode(word: str) -> str:
    return base64.b64decode(word).decode(errors="replace")


def endpoints_of(text: str) -> List[Tuple[str, int]]:
    """The nodes of `HOST:PORT,HOST:PORT`."""
    found = []
    for word in text.split(","):
        host, colon, port = word.rpartition(":") if not word.endswith("]") else (word, "", "")
        name, number = (host, port) if colon else (word, str(PORT))
        if not name or not number.isascii() or not number.isdigit() or not 0 < int(number) < 65_536:
            raise FleetError(f"a node of etcd is HOST or HOST:PORT, and not {shown(repr(word))}")
        found.append((name.strip("[]"), int(number)))
    return found


class Etcd:
    """Nodes of etcd, of which one is asked until it fails."""

    def __init__(self, endpoints: Sequence[Tuple[str, int]], access: Access):
        # so that a fleet spreads over the nodes
        self._endpoints = random.sample(list(endpoints), len(endpoints))
        self._access, self._context, self._seconds = access, access.context(), STEP_SECONDS
        self._connection: Optional[http.client.HTTPConnection] = None
        self._token: Optional[str] = None

    def ask(self, path: str, body: Answer) -> Answer:
        """The answer to a request, of the first node that gives one. One that no node may carry out is a `FleetError`."""
        why: Optional[Unavailable] = None
        # once more than there are nodes, since one may have closed a connection that was idle
        for _ in range(len(self._endpoints) + 1):
            try:
                return self._ask_as_user(path, body)
            except Unavailable as failed:
                why = failed
                self._next()
        assert why is not None
        raise why

    def _ask_as_user(self, path: str, body: Answer) -> Answer:
        if self._access.user is not None and self._token is None:
            self._authenticate()
        try:
            return self._post(path, body)
        except PermissionError:
            # its token is too old, or the node began anew
            self._authenticate()
        try:
            return self._post(path, body)
        except PermissionError as why:
            raise FleetError(f"etcd lets nobody in so: {why}") from why

    def _authenticate(self) -> None:
        self._token = None
        if self._access.user is None:
            raise FleetError("etcd wants a user: --user NAME")
        self._token = str(self._post("/v3/auth/authenticate", {"name": self._access.user, "password": self._access.password}).get("token"))

    def _post(self, path: str, body: Answer) -> Answer:
        try:
            if self._connection is None:
                self._connection = self._connect(self._seconds)
            response = self._send(self._connection, path, body)
            content = response.read()
        except (OSError, http.client.HTTPException) as why:
            raise self._failed(why) from why
        if response.status != 200:
            raise self._refusal(content, response.status)
        return self._parsed(content)

    def _connect(self, seconds: float) -> http.client.HTTPConnection:
        host, port = self._endpoints[0]
        if self._context is None:
            made = http.client.HTTPConnection(host, port, timeout=seconds)
        else:
            made = http.client.HTTPSConnection(host, port, timeout=seconds, context=self._context)
        try:
            made.connect()
            made.sock.setsockopt(socket.SOL_SOCKET, socket.SO_KEEPALIVE, 1)
            for option, value in KEEPALIVE:
                made.sock.setsockopt(socket.IPPROTO_TCP, option, value)
        except BaseException:
            made.close()
            raise
        return made

    def _send(self, connection: http.client.HTTPConnection, path: str, body: Answer) -> http.client.HTTPResponse:
        headers = {"Content-Type": "application/json"}
        if self._token is not None:
            headers["Authorization"] = self._token
        if path == "/v3/watch":
            # a node that has lost the others says so
            headers["Grpc-Metadata-hasleader"] = "true"
        connection.request("POST", path, json.dumps(body), headers)
        return connection.getresponse()

    def watch(self, body: Answer, seconds: float) -> Iterator[Answer]:
        """What a watch tells, as it comes. It ends if nothing came for so long; `Unavailable` if it is broken off."""
        connection = None
        try:
            connection = self._connect(self._seconds)
            response = self._send(connection, "/v3/watch", {"create_request": body})
            if response.status != 200:
                raise self._refusal(response.read(), response.status)
            connection.sock.settimeout(seconds)
            while line := response.readline():
                yield self._told(line)
        except socket.timeout:
            return
        except PermissionError as why:
            self._token = None
            raise Unavailable(str(why)) from why
        except (OSError, http.client.HTTPException) as why:
            raise self._lost(why) from why
        finally:
            if connection is not None:
                connection.close()
        raise self._lost(ConnectionResetError("the watch has ended"))

    def _told(self, line: bytes) -> Answer:
        answer = self._parsed(line)
        told = answer.get("result")
        if not isinstance(told, dict) or told.get("canceled"):
            raise self._lost(OSError(f"the watch was ended: {shown(line.decode(errors='replace').strip())}"))
        return told

    def _lost(self, why: Exception) -> Unavailable:
        failed = self._failed(why)
        self._next()
        return failed

    def _parsed(self, content: bytes) -> Answer:
        try:
            answer = json.loads(content)
        except ValueError:
            answer = None
        if not isinstance(answer, dict):
            raise self._failed(OSError(f"what came is no answer: {shown(content.decode(errors='replace'))}"))
        return answer

    def _refusal(self, content: bytes, status: int) -> Exception:
        """The error of an answer that is none; `PermissionError` if one has to say anew who one is."""
        try:
            answer = json.loads(content)
            told, code = str(answer["error"]), answer.get("code")
        except (ValueError, KeyError, TypeError):
            # such as a certificate that has a CommonName, which the gateway refuses beside users
            told, code = shown(content.decode(errors="replace").strip()) or f"HTTP status {status}", None
        if code == UNAUTHENTICATED or self._access.user is not None and "auth token" in told:
            return PermissionError(told)
        if code in PASSING or code is None and status >= 500:
            return self._failed(OSError(told))
        return FleetError(f"etcd refused: {told}")

    def _failed(self, why: Exception) -> Unavailable:
        host, port = self._endpoints[0]
        text = os.strerror(why.errno) if isinstance(why, OSError) and why.errno else str(why) or type(why).__name__
        return Unavailable(f"etcd at {host}:{port}: {text}")

    def _next(self) -> None:
        self.close()
        self._endpoints.append(self._endpoints.pop(0))

    def close(self) -> None:
        if self._connection is not None:
            self._connection.close()
            self._connection = None
