"""The way to a broker: an outbox that is emptied over paho, a last will, and what comes from there.

paho has a thread, and calls `on_publish` under the lock that `publish` takes. So its callbacks only hand over to the loop, which has all
state and publishes."""

import asyncio
import json
import secrets
import socket
import ssl
import sys
import time
from collections import deque
from typing import Any, Callable, Deque, Dict, Mapping, Optional

import paho.mqtt.client as mqtt
from bossd.ctl._toml import Failure

from .outbox import Outbox
from .saying import Saying
from .settings import Broker, password_of
from .topics import OFF, ON, Topics

# How many answers may be under way: of a flood of faulty commands not each has one.
MOST_ANSWERS = 200
# How long to wait before connecting again, in seconds: at first and at most; where the login was refused; where another client has the id.
PAUSES, REFUSED, TAKEN = (1, 5), (30, 30), (60, 60)
# So many connections within a minute that ended at once are another client's.
MOST_ENDS, AT_ONCE, A_MINUTE = 5, 2.0, 60.0
BAD_LOGIN = (4, 5)
# For how long the end waits for its last message, in seconds.
PARTING = 2.0

Command = Callable[[str, str, bytes], None]


def context_of(broker: Broker) -> Optional[ssl.SSLContext]:
    """How TLS is spoken; None where it is not. Failure where a file cannot be read."""
    if broker.ca_file is None:
        return None
    path = broker.ca_file
    try:
        context = ssl.create_default_context(cafile=path)
        context.minimum_version = ssl.TLSVersion.TLSv1_2
        if broker.cert_file is not None:
            path = broker.cert_file
            context.load_cert_chain(broker.cert_file, broker.key_file)
        return context
    except (OSError, ssl.SSLError) as error:
        raise Failure(f"{path}: {getattr(error, 'strerror', None) or error}") from error


def at_once(link: Any) -> None:
    """Has each message leave at once: the system holds a small one back, for up to 40 ms, until those before are acknowledged."""
    link.setsockopt(socket.IPPROTO_TCP, socket.TCP_NODELAY, 1)


class Link:
    """A connection that comes again by itself. `is_up` is whether it stands, `is_online` whether the broker has all that was wanted, and
    is told so; `lost_at` is when it was lost, by a clock in seconds. `took` is called with how long each message took, in seconds."""

    def __init__(self, topics: Topics, broker: Broker, saying: Saying, command: Command, is_ours: Callable[[str], bool]) -> None:
        self.topics, self.broker, self.saying, self.command, self._is_ours = topics, broker, saying, command, is_ours
        self.is_up, self.is_online, self.lost_at = False, False, time.monotonic()
        self.connects, self.published, self.passed_over, self.unanswered = 0, 0, 0, 0
        self.took: Callable[[float], None] = lambda seconds: None
        self.outbox = Outbox()
        self.id = secrets.token_hex(4)
        self._answers: Dict[int, None] = {}
        self._swept = False
        self._others: Deque[float] = deque(maxlen=2)
        self._began = 0.0
        self._ends: Deque[float] = deque(maxlen=MOST_ENDS)
        self._loop: Optional[asyncio.AbstractEventLoop] = None
        # A clean session: commands that were sent while nobody was here are not kept for a later hour.
        self._client = mqtt.Client(client_id=broker.client_id, clean_session=True, protocol=mqtt.MQTTv311)
        self._client.max_inflight_messages_set(2 * (self.outbox.window + MOST_ANSWERS))
        self._client.reconnect_delay_set(*PAUSES)
        self._client.will_set(topics.availability, OFF, qos=1, retain=True)
        self._client.on_socket_open = lambda client, data, link: at_once(link)
        self._client.on_connect = lambda client, data, flags, code: self._hand(self._connected, code)
        self._client.on_connect_fail = lambda client, data: self._hand(self._failed, sys.exc_info()[1])
        self._client.on_disconnect = lambda client, data, code: self._hand(self._disconnected)
        self._client.on_publish = lambda client, data, number: self._hand(self._acknowledged, number)
        self._client.on_message = lambda client, data, message: self._hand(self._came, message)

    def start(self) -> None:
        """Begins to connect. Failure where a password or a certificate cannot be read."""
        self._loop = asyncio.get_running_loop()
        context = context_of(self.broker)
        if context is not None:
            self._client.tls_set_context(context)
        self._log_in()
        self._client.connect_async(self.broker.host, self.broker.port, self.broker.keepalive // 1000)
        self._client.loop_start()

    def want(self, topics: Mapping[str, str]) -> None:
        """Has these topics retained with these payloads."""
        self.outbox.want(topics)
        self._pump()

    def answer(self, topic: str, told: Mapping[str, object]) -> None:
        """Answers a command, if it can."""
        if not self.is_up or len(self._answers) >= MOST_ANSWERS:
            self.unanswered += 1
            return
        payload = json.dumps(told, ensure_ascii=False, separators=(",", ":"))
        self._answers[self._client.publish(topic, payload, qos=1).mid] = None

    async def stop(self) -> None:
        """Says that it goes: a connection that ends in order sends no last will."""
        if self.is_up:
            said = self._client.publish(self.topics.availability, OFF, qos=1, retain=True)
            await asyncio.to_thread(said.wait_for_publish, PARTING)
        self.is_up = self.is_online = False
        self._client.disconnect()
        await asyncio.to_thread(self._client.loop_stop)

    # -- from paho's thread

    def _hand(self, call: Callable[..., None], *given: Any) -> None:
        assert self._loop is not None
        try:
            self._loop.call_soon_threadsafe(call, *given)
        except RuntimeError:
            # The loop has ended.
            pass

    # -- on the loop

    def _log_in(self) -> None:
        if self.broker.user is not None:
            self._client.username_pw_set(self.broker.user, password_of(self.broker))

    def _connected(self, code: int) -> None:
        if code:
            self._refused(code)
            return
        self._client.reconnect_delay_set(*PAUSES)
        self.is_up, self.connects, self._began = True, self.connects + 1, time.monotonic()
        self.saying.say(f"connected to {self.broker.host}:{self.broker.port}")
        self._client.subscribe([(topic, 1) for topic in self.topics.commands])
        self._client.subscribe([(topic, 0) for topic in (self.topics.bridge, self.topics.marker)])
        self.outbox.forget(self.topics.availability)
        self.outbox.lost()
        if not self._swept:
            # Behind what is retained under these the marker comes back.
            self._client.subscribe([(topic, 0) for topic in self.topics.kept])
            self._client.publish(self.topics.marker, self.id, qos=1)
        self._pump()

    def _refused(self, code: int) -> None:
        self.saying.once(("login", code), f"{self.broker.host}:{self.broker.port}: {mqtt.connack_string(code)}")
        if code in BAD_LOGIN:
            self._client.reconnect_delay_set(*REFUSED)
            try:
                # It may have been changed.
                self._log_in()
            except Failure as error:
                self.saying.once("password", str(error))

    def _failed(self, error: Optional[BaseException]) -> None:
        self.saying.once(("failed", str(error)), f"{self.broker.host}:{self.broker.port}: {error}")

    def _disconnected(self) -> None:
        if not self.is_up:
            return
        now = time.monotonic()
        self.is_up = self.is_online = False
        self.lost_at = now
        self._answers.clear()
        self.saying.say(f"the connection to {self.broker.host}:{self.broker.port} is lost")
        if now - self._began < AT_ONCE:
            self._ends.append(now)
        if len(self._ends) == MOST_ENDS and now - self._ends[0] < A_MINUTE:
            self.saying.once("id", f"another client has the id {self.broker.client_id}: is another copy running?")
            self._client.reconnect_delay_set(*TAKEN)

    def _acknowledged(self, number: int) -> None:
        self._answers.pop(number, None)
        seconds = self.outbox.acknowledged(number)
        if seconds is not None:
            self.published += 1
            self.took(seconds)
        self._pump()

    def _pump(self) -> None:
        while self.is_up:
            if self.outbox.is_empty and not self.is_online:
                self._go_online()
            following = self.outbox.next()
            if following is None:
                return
            topic, payload = following
            self.outbox.sent(self._client.publish(topic, payload, qos=1, retain=True).mid, topic)

    def _go_online(self) -> None:
        """Points first and availability behind them: what is there when it says `online` is of now."""
        self.is_online = True
        self.outbox.want({self.topics.availability: ON})

    def _came(self, message: Any) -> None:
        command = self.topics.command_of(message.topic)
        if command is not None and message.retain:
            # It would be made again at each connect.
            self.passed_over += 1
        elif command is not None:
            self.command(*command, message.payload)
        elif message.topic == self.topics.marker and message.payload == self.id.encode() and not self._swept:
            self._swept = True
            self._client.unsubscribe(self.topics.kept)
        elif message.topic == self.topics.bridge:
            self._heard_bridge(message)
        elif message.retain and message.payload and not self._is_ours(message.topic):
            self._client.publish(message.topic, b"", qos=1, retain=True)

    def _heard_bridge(self, message: Any) -> None:
        """Another bridge of the same base is found out by what it says of itself."""
        if message.retain or f'"id":"{self.id}"'.encode() in message.payload:
            return
        self._others.append(time.monotonic())
        if len(self._others) == 2 and self._others[1] - self._others[0] < A_MINUTE:
            self.saying.once("base", f"another bridge has the base {self.topics.base}: is another copy running?")
