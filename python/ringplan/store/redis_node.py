"""Nodes over redis: an area is a hash of keys, and a merge is one script in the server.

What redis has answered outlives the process, not the machine. With `appendfsync no` it writes each
change to its file before it answers, and syncs nothing. `everysec` is weaker against kills: during
a slow sync redis answers first and writes later, so a kill loses what was answered.
"""

from __future__ import annotations

import json
import subprocess
from collections.abc import Iterable
from operator import methodcaller

import redis

from ringplan.store.nodes import PATIENCE, ServerNode, versions_of
from ringplan.store.versions import Contents, Version

# `merged` and `latest` of `versions.py`, one new version at a time. Counts stay whole below 10^14.
MERGE = """
local function is_at_most(one, other)
  for writer, count in pairs(one) do if (other[writer] or 0) < count then return false end end
  return true
end
local function merged(old, version)
  local kept = {}
  for _, other in ipairs(old) do
    if is_at_most(version[2], other[2]) then return old end
    if not is_at_most(other[2], version[2]) then kept[#kept + 1] = other end
  end
  kept[#kept + 1] = version
  return kept
end
local function latest(old, version)
  return old[1] and old[1][1] >= version[1] and old or {version}
end
local merge = ARGV[1] == 'latest' and latest or merged
for at = 2, #ARGV, 2 do
  local kept = cjson.decode(redis.call('HGET', KEYS[1], ARGV[at]) or '[]')
  for _, version in ipairs(cjson.decode(ARGV[at + 1])) do kept = merge(kept, version) end
  redis.call('HSET', KEYS[1], ARGV[at], cjson.encode(kept))
end
"""


class RedisNode(ServerNode["redis.Redis[bytes]"]):
    """A `redis-server` on a Unix socket, with an append-only file and no snapshots."""

    program, package = "redis-server", "redis-server"
    broken = (redis.ConnectionError, redis.TimeoutError)

    def launch(self) -> subprocess.Popen[bytes]:
        words = [
            self.find(),
            "--port",
            "0",
            "--unixsocket",
            self.path,
            "--dir",
            self.folder,
            "--logfile",
            "log",
        ]
        return subprocess.Popen(
            [*words, "--appendonly", "yes", "--appendfsync", "no", "--save", ""],
            start_new_session=True,
        )

    def connect(self) -> redis.Redis[bytes]:
        try:
            link = redis.Redis(
                unix_socket_path=self.path, socket_timeout=PATIENCE, single_connection_client=True
            )
        except AttributeError as error:
            # The client wants to name the host of a connection that broke as it was made, and a
            # Unix socket has none.
            raise redis.ConnectionError(self.path) from error
        # It refuses while the server still reads its file.
        link.ping()
        return link

    def fetch(self, area: str, key: str) -> list[Version]:
        return versions_of(self.ask(lambda link: link.hget(area, key)))

    def scan(self, area: str) -> Contents:
        return {
            key.decode(): versions_of(text)
            for key, text in self.ask(lambda link: link.hgetall(area)).items()
        }

    def merge(self, area: str, contents: Contents) -> None:
        words = [word for key, versions in contents.items() for word in (key, json.dumps(versions))]
        self.ask(
            methodcaller("eval", MERGE, 1, area, "latest" if self.latest_wins else "merged", *words)
        )

    def clear(self, areas: Iterable[str]) -> None:
        if names := list(areas):
            self.ask(lambda link: link.delete(*names))
