"""A small provider of users, in memory, which meets each condition of `push`; a subclass breaks one."""
import contextlib
import json
import socket
import threading
import urllib.parse

from peers import LIST, answer, read_request
from support import PATIENCE, SOURCE


class SmallProvider:
    """It listens in its context, and takes one request a connection. `users` has its users by their ids."""

    def __init__(self, *users):
        self.users, self.requests = {}, []
        for user in users:
            self.keep(user)
        self.listener = socket.create_server(("127.0.0.1", 0))
        self.address = f"127.0.0.1:{self.listener.getsockname()[1]}"
        self.thread = threading.Thread(target=self.converse, daemon=True)

    def __enter__(self):
        self.thread.start()
        return self

    def __exit__(self, *_):
        self.listener.shutdown(socket.SHUT_RDWR)
        self.thread.join(PATIENCE)
        self.listener.close()

    def converse(self):
        with contextlib.suppress(OSError):
            while True:
                stream, _ = self.listener.accept()
                with stream:
                    stream.sendall(self.respond(*read_request(stream)))

    def respond(self, lines, body):
        """The bytes that answer a request."""
        method, target, _ = lines[0].split()
        fields = dict(line.split(": ", 1) for line in lines[1:])
        path, _, query = target.removeprefix("/v2/").partition("?")
        kind, _, id = path.partition("/")
        content = json.loads(body) if body else None
        self.requests.append((method, path))
        if method == "GET" and not id:
            return self.search(kind, urllib.parse.parse_qs(query)["filter"][0].split('"')[1])
        if method == "POST":
            return self.create(content)
        if id not in self.users:
            return answer(404)
        return self.replace(id, content, fields.get("If-Match")) if method == "PUT" else self.read(id)

    # ---- what it does; each may be otherwise

    def search(self, kind, name):
        found = self.find(name) if kind == "Users" else []
        resources = [self.listed(id) for id in found]
        return answer(200, {"schemas": [LIST], "totalResults": len(found), "Resources": resources})

    def find(self, name):
        return [id for id, user in self.users.items() if user["userName"].lower() == name.lower()]

    def create(self, content):
        return self.taken() if self.find(content["userName"]) else self.created(self.keep(content))

    def read(self, id):
        return answer(200, self.shown(id))

    def replace(self, id, content, if_match):
        if if_match is not None and if_match != self.version(id):
            return self.stale()
        self.keep(content, id)
        return self.replaced(id)

    def keep(self, content, id=None):
        """Keeps what a request has of a user: its id."""
        id = id or str(len(self.users) + 1)
        changes = self.users[id]["changes"] + 1 if id in self.users else 1
        self.users[id] = content | {"changes": changes}
        return id

    # ---- what it says

    def version(self, id):
        return f'"v{self.users[id]["changes"]}"'

    def shown(self, id):
        user = {name: value for name, value in self.users[id].items() if name != "changes"}
        return user | {"id": id, "meta": {"version": self.version(id), "resourceType": "User"}}

    def listed(self, id):
        return self.shown(id)

    def created(self, id):
        return answer(201, self.shown(id))

    def replaced(self, id):
        return answer(200, self.shown(id))

    def taken(self):
        return answer(409)

    def stale(self):
        return answer(412)


class DropsExtension(SmallProvider):
    """It keeps what it knows, and the source extension isn't among it."""

    def keep(self, content, id=None):
        return super().keep({name: value for name, value in content.items() if name != SOURCE}, id)


class HasNoVersions(DropsExtension):
    """It keeps no count of changes, and reads no condition."""

    def __init__(self, *users):
        super().__init__(*users)
        self.conditions = []

    def replace(self, id, content, if_match):
        self.conditions.append(if_match)
        return super().replace(id, content, None)

    def shown(self, id):
        return super().shown(id) | {"meta": {"resourceType": "User"}}
