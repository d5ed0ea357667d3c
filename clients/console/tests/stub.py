"""Speaks the protocol as far as the console asks, with a device that refuses, and with access rules that deny every submit."""

import json
import socketserver
import threading
import time

from tests.common import tools

UNTIL = round(time.time() * 1000) + 3_600_000
# Since when the device of ahu1.damper has what it took before.
SINCE = UNTIL - 7_200_000


class Stub:
    """A server whose point ahu1.damper is held by `comfort` and refused by its device; `failed` may be cleared. `rule` is by which rule it
    denies a submit. With `keys`, by names, it knows by these who somebody is, and `shown` has whose right ones it was shown."""

    def __init__(self):
        self.failed, self.listed, self.rule = True, [], 2
        self.keys, self.shown = None, []
        stub = self

        class Handler(socketserver.StreamRequestHandler):
            def handle(self):
                is_first = stub.keys is not None
                for line in self.rfile:
                    if is_first and not stub.is_shown(json.loads(line)):
                        self.wfile.write(b'{"error":"wrong-key"}\n')
                        return
                    is_first = False
                    self.wfile.write(json.dumps(stub.answer(json.loads(line))).encode() + b"\n")

        class Server(socketserver.ThreadingTCPServer):
            allow_reuse_address, daemon_threads = True, True

        self.port = tools.free_port()
        self.address = f"127.0.0.1:{self.port}"
        self.server = Server(("127.0.0.1", self.port), Handler)
        threading.Thread(target=self.server.serve_forever, daemon=True).start()

    def is_shown(self, asked):
        """Whether a line has a right key."""
        name = asked.get("as", asked.get("process"))
        is_right = name in self.keys and asked.get("key") == self.keys[name]
        self.shown += [name] if is_right else []
        return is_right

    def stop(self):
        self.server.shutdown()
        self.server.server_close()

    def fault(self, at):
        self.listed.append({"n": len(self.listed) + 1, "at": at, "txn": 1, "kind": "fault", "point": "ahu1.damper"})

    def answer(self, asked):
        return getattr(self, asked["op"], self.unknown)(asked)

    def unknown(self, asked):
        """As a server of before 0.3.0, which tells neither its points nor its version."""
        return {"error": "unknown-op"}

    def read(self, asked):
        if asked["point"] == "ahu1.damper":
            return {"ok": "read", "point": "ahu1.damper", "value": 35_000, "from": "lease", "priority": 12, "txn": 1,
                    **({"mark": "failed", "took": 20_000, "since": SINCE} if self.failed else {"mark": "settled"})}
        if asked["point"] == "floor2.office":
            return {"error": "unknown-point", "index": 0}
        return {"ok": "read", "point": asked["point"], "value": 20_000, "from": "default", "mark": "settled"}

    def array(self, asked):
        return {"ok": "array", "point": asked["point"], "default": 20_000, "slots": [None] * 11 + [{"value": 35_000, "txn": 1, "until": UNTIL}] + [None] * 4}

    def status(self, asked):
        return {"ok": "status", "txn": 1, "owner": "comfort", "stage": "run", "live": 1, "pending": 0}

    def notices(self, asked):
        fresh = [one for one in self.listed if one["n"] >= asked["from"]]
        return {"ok": "notices", "first": 1, "next": len(self.listed) + 1, "list": fresh}

    def attach(self, asked):
        return {"ok": "attached", "process": asked["process"], "next": 1}

    def cancel(self, asked):
        return {"error": "unknown-txn"}

    def submit(self, asked):
        return {"error": "denied", "index": 0, "rule": self.rule}
