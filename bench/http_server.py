"""Users over HTTP by Python's own modules, for bench/serve.py: http_server.py COUNT [STORE].

It prints the address that it listens on, and serves so many connections: GET by id, POST, PUT under
If-Match and a search by name. With a store each change is committed by sqlite3 before it is answered.
"""
import http.server
import json
import sys
import urllib.parse

import stores

BASE = "/v2/Users"
STORE = stores.connect(sys.argv[2]) if len(sys.argv) > 2 else None
users, names = {}, {}


def number_of(path):
    return int(path.rpartition("-")[2], 16)


def shown(number, version, user):
    location = f"{BASE}/5c1a0000-0000-8000-8000-{number:012x}"
    meta = {"location": location, "resourceType": "User", "version": f'"{version}"'}
    return user | {"id": location.rpartition("/")[2], "meta": meta}


def text_of(value):
    return json.dumps(value, separators=(",", ":"), sort_keys=True)


class Handler(http.server.BaseHTTPRequestHandler):
    def log_message(self, *_):
        pass

    def say(self, status, value, version=0):
        text = text_of(value).encode()
        self.send_response(status)
        self.send_header("Content-Type", "application/scim+json")
        self.send_header("Content-Length", str(len(text)))
        if version:
            self.send_header("ETag", f'"{version}"')
        self.end_headers()
        self.wfile.write(text)

    def body(self):
        return json.loads(self.rfile.read(int(self.headers["Content-Length"])))

    def do_GET(self):
        path, _, query = self.path.partition("?")
        if query:
            name = urllib.parse.parse_qs(query)["filter"][0].split('"')[1].lower()
            found = [shown(names[name], *users[names[name]])] if name in names else []
            self.say(200, {"Resources": found, "totalResults": len(found)})
        elif number_of(path) in users:
            found = users[number_of(path)]
            self.say(200, shown(number_of(path), *found), found[0])
        else:
            self.say(404, {})

    def do_POST(self):
        user = self.body()
        name, number = user["userName"].lower(), len(users) + 1
        if name in names:
            return self.say(409, {})
        if STORE:
            STORE.execute(stores.Provider.insert, (number, 1, name, 1, text_of(user)))
        users[number], names[name] = (1, user), number
        self.say(201, shown(number, 1, user), 1)

    def do_PUT(self):
        user, number = self.body(), number_of(self.path)
        if number not in users:
            return self.say(404, {})
        version = users[number][0]
        if self.headers["If-Match"] != f'"{version}"':
            return self.say(412, {})
        if STORE:
            STORE.execute(stores.Provider.update, (number, version + 1, text_of(user)))
        users[number] = version + 1, user
        self.say(200, shown(number, version + 1, user), version + 1)


class Server(http.server.HTTPServer):
    request_queue_size = 128


def main():
    for number, _, name, version, content in STORE.execute("SELECT * FROM resource") if STORE else ():
        users[number], names[name] = (version, json.loads(content)), number
    server = Server(("127.0.0.1", 0), Handler)
    print(f"listening 127.0.0.1:{server.server_port}", flush=True)
    for _ in range(int(sys.argv[1])):
        server.handle_request()


main()
