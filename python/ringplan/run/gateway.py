"""A client of etcd: transactions and leases by its JSON gateway."""

from __future__ import annotations

import base64
import http.client
import json
import ssl
import sys
import threading
import time
from collections.abc import Sequence
from dataclasses import dataclass
from typing import Any, NamedTuple

from ringplan.run.board import Status, Stop, Tries

# How long one request may take, the first pause after one without an answer, and after how long the
# operator is told, in seconds.
REQUEST, PAUSE, TOLD = 5.0, 0.1, 5.0
# The codes of gRPC by which a server says that it may answer later, that a lease is not there, and
# that a user's token is over.
LATER, NOT_FOUND, NO_USER = (1, 2, 4, 14), 5, 16
# How a request ends that has no answer.
NO_ANSWER = (OSError, http.client.HTTPException, ValueError)

Json = dict[str, Any]


class Refused(Stop):
    """A request that etcd refused, with its code of gRPC. Nothing has happened."""

    def __init__(self, code: int, what: str) -> None:
        super().__init__(Status.FAULT, f"etcd refuses a request: {what}")
        self.code = code


def coded(text: str | bytes) -> str:
    """A key or a value as the gateway takes it."""
    return base64.b64encode(text.encode() if isinstance(text, str) else text).decode()


class Value(NamedTuple):
    """A key's value, with the revisions of its creation and of its last change.

    A key that is not there has two zeros.
    """

    key: str = ""
    data: bytes = b""
    created: int = 0
    changed: int = 0

    def members(self) -> Json:
        members: Json = json.loads(self.data or b"{}")
        return members

    def tries(self) -> Tries:
        return Tries(
            **{member: value for member, value in self.members().items() if member != "nonce"}
        )


def value_of(pair: Json) -> Value:
    key, data = (base64.b64decode(pair.get(member, "")) for member in ("key", "value"))
    return Value(key.decode(), data, int(pair["create_revision"]), int(pair["mod_revision"]))


def get(key: str, end: str = "", limit: int = 0, revision: int = 0) -> Json:
    """Reads a key, or the keys from it to before another one, in their order; as they were at a
    revision.
    """
    return {
        "request_range": {
            "key": coded(key),
            "range_end": coded(end),
            "limit": limit,
            "revision": revision,
        }
    }


def put(key: str, value: Json | bytes, lease: int = 0) -> Json:
    """Writes a key, which is deleted when its lease ends."""
    data: str | bytes = (
        value if isinstance(value, bytes) else json.dumps(value, separators=(",", ":"))
    )
    return {"request_put": {"key": coded(key), "value": coded(data), "lease": lease}}


def delete(key: str, end: str = "") -> Json:
    """Deletes a key, or the keys from it to before another one."""
    return {"request_delete_range": {"key": coded(key), "range_end": coded(end)}}


def is_created(key: str, revision: int) -> Json:
    """Compares at which revision a key was created; 0 is a key that is not there."""
    return {"key": coded(key), "target": "CREATE", "create_revision": revision}


def is_changed(key: str, revision: int) -> Json:
    """Compares at which revision a key was last changed; 0 is a key that is not there."""
    return {"key": coded(key), "target": "MOD", "mod_revision": revision}


@dataclass(frozen=True)
class Access:
    """The addresses of an etcd's members, `HOST:PORT` each, and what they ask for: files of
    certificates, and a user.
    """

    members: tuple[str, ...]
    is_tls: bool = False
    ca: str | None = None
    cert: str | None = None
    key: str | None = None
    user: str | None = None
    password: str = ""

    def __str__(self) -> str:
        return ",".join(self.members)


class Etcd:
    """The JSON gateway of etcd.

    A request without an answer is sent again, to the next member, with growing pauses, as long as
    patience lasts: it may happen twice.

    Patience is one for all requests: it begins when one has no answer, and is as before once one
    has.
    """

    def __init__(self, access: Access) -> None:
        self.access, self.patience, self.member, self.token = access, 0.0, 0, ""
        # When answers stopped; whether the operator knows; the cluster, and its greatest revision.
        self.silent, self.is_told, self.cluster, self.revision = None, False, "", 0
        self.local = threading.local()

    silent: float | None

    def connection(self, timeout: float) -> http.client.HTTPConnection:
        """This thread's connection to the member that is asked. An answer may take so long."""
        member, link = self.access.members[self.member], self.local.__dict__.get("link")
        if link is None or self.local.member != member:
            link, self.local.member = http.client.HTTPConnection(member), member
            if self.access.is_tls:
                context = ssl.create_default_context(cafile=self.access.ca)
                if self.access.cert:
                    context.load_cert_chain(self.access.cert, self.access.key)
                link = http.client.HTTPSConnection(member, context=context)
            self.local.link = link
        link.timeout = timeout
        if link.sock is not None:
            link.sock.settimeout(timeout)
        return link

    def send(self, path: str, body: Json, timeout: float) -> tuple[int, Json]:
        link = self.connection(timeout)
        # By `Accept` etcd knows that a request came by its gateway, whose certificate is not the
        # user's.
        headers = {
            "Accept": "application/json",
            **({"Authorization": self.token} if self.token else {}),
        }
        try:
            link.request("POST", path, json.dumps(body), headers)
            answer = link.getresponse()
            data = answer.read()
        except NO_ANSWER:
            link.close()
            raise
        if answer.status == 400 and not data.startswith(b"{"):
            raise Refused(0, data.decode(errors="replace").strip()[:200])
        reply: Json = json.loads(data)
        if not isinstance(reply, dict):
            raise ValueError("the answer is not etcd's")
        return answer.status, reply

    def ask(self, path: str, body: Json, timeout: float = REQUEST) -> Json:
        """Sends a request once."""
        least = self.revision
        try:
            if self.access.user and not self.token:
                status, reply = self.send(
                    "/v3/auth/authenticate",
                    {"name": self.access.user, "password": self.access.password},
                    timeout,
                )
                if status != 200 and reply.get("code") not in LATER:
                    raise Refused(int(reply.get("code", 0)), str(reply.get("error")))
                self.token = reply.get("token", "")
            status, reply = self.send(path, body, timeout)
        except NO_ANSWER:
            self.member = (self.member + 1) % len(self.access.members)
            raise
        if status == 200:
            self.demand_newer(reply, least)
            return reply
        if reply.get("code") == NO_USER and self.token:
            self.token = ""
            raise ConnectionError(reply.get("error"))
        if reply.get("code") in LATER:
            raise ConnectionError(reply.get("error"))
        raise Refused(int(reply.get("code", 0)), str(reply.get("error")))

    def demand_newer(self, reply: Json, least: int) -> None:
        """A `Stop` if the answer is of another cluster than the one before, or of an older state
        than was known when it was asked.
        """
        header = reply.get("header", {})
        if (
            "cluster_id" not in header
            or "revision" not in header
            or "succeeded" not in reply
            and "responses" not in reply
        ):
            return
        cluster, revision = header["cluster_id"], int(header["revision"])
        if self.cluster not in ("", cluster) or revision < least:
            raise Stop(
                Status.OTHER_PLAN,
                (
                    f"etcd at {self.access} has come back older, or as another cluster: its board"
                    " is not to be trusted"
                ),
            )
        self.cluster, self.revision = cluster, max(self.revision, revision)

    def call(self, path: str, body: Json) -> Json:
        """Sends a request until it is answered. It is a `Stop` once patience ends."""
        pause = PAUSE
        while True:
            try:
                reply = self.ask(path, body)
            except NO_ANSWER as error:
                self.wait(pause, error)
                pause = min(2 * pause, 5.0)
            else:
                if self.is_told:
                    print(f"etcd at {self.access} answers again", file=sys.stderr, flush=True)
                self.silent, self.is_told = None, False
                return reply

    def wait(self, pause: float, error: Exception) -> None:
        """Waits before the next try. Tells the operator once."""
        now = time.monotonic()
        self.silent = since = self.silent or now
        if now + pause > since + self.patience:
            # Of errors in one another the innermost one says what is wrong.
            inner = str(error).rsplit(": ", 1)[-1].rstrip(")'\"")
            raise Stop(
                Status.FAULT, f"etcd at {self.access} does not answer: {inner[:200]}"
            ) from error
        if now > since + TOLD and not self.is_told:
            self.is_told = True
            print(
                (
                    f"etcd at {self.access} does not answer since"
                    f" {time.strftime('%H:%M:%S', time.localtime(time.time() - now + since))}"
                ),
                file=sys.stderr,
                flush=True,
            )
        threading.Event().wait(pause)

    def transact(
        self, compares: Sequence[Json], changes: Sequence[Json], reads: Sequence[Json] = ()
    ) -> tuple[int, list[list[Value]]]:
        """Does all changes where all compares hold, else all reads.

        Returns the revision of the changes, or 0 and what each read found.
        """
        reply = self.call("/v3/kv/txn", {"compare": compares, "success": changes, "failure": reads})
        if "header" not in reply:
            raise Stop(Status.FAULT, f"the server at {self.access} is not an etcd")
        if reply.get("succeeded"):
            return int(reply["header"]["revision"]), []
        return 0, [
            [value_of(pair) for pair in answer["response_range"].get("kvs", ())]
            for answer in reply.get("responses", ())
        ]

    def read(self, *reads: Json) -> list[list[Value]]:
        """What each read finds, at one moment: no key was created before the first revision.

        The compare asks for no right that the reads do not ask for.
        """
        never = {"key": reads[0]["request_range"]["key"], "target": "CREATE", "create_revision": -1}
        return self.transact([never], [], reads)[1]

    def read_each(self, *keys: str) -> list[Value]:
        return [found[0] if found else Value() for found in self.read(*map(get, keys))]
