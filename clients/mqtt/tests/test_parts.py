"""Tests of the parts that ask nobody: topics, payloads, what Home Assistant is told, the outbox, commands and metrics."""

import json
import unittest

from tests import common
from tests.home_assistant import sentences

from bossd_mqtt import metrics
from bossd_mqtt.commands import Bucket, Unfit, Wish, release_of, set_of
from bossd_mqtt.discovery import OF_BINARY, OF_SWITCH, OF_UNITS, bridge_found, component_of, escaped, found
from bossd_mqtt.outbox import Outbox
from bossd_mqtt.settings import Settable
from bossd_mqtt.topics import Point, State, Topics, is_levels, retained, text_of, value_of

TOPICS = Topics("north/hall")
DAMPER = Point("air.damper", "analog", 0, 100_000, "percent", "supply air")
ROOM = Point("room.set-point", "analog", 5_000, 30_000, "degC")
FAN = Point("air.fan", "multi", 1, 3)
LAMP = Point("lamp", "binary")
KINDS = (DAMPER, ROOM, FAN, LAMP)


def settable(point, **more):
    return Point(**{**point.__dict__, "settable": True, **more})


def told(point):
    return json.loads(found(TOPICS, point)[1])


class Discovery(unittest.TestCase):
    def test_each_kind_is_taken(self):
        for points, kinds in (([settable(point) for point in KINDS], ["number", "number", "select", "switch"]),
                              (KINDS, ["sensor", "sensor", "sensor", "binary_sensor"])):
            self.assertEqual([component_of(point) for point in points], kinds)
            for message in [bridge_found(TOPICS)] + [found(TOPICS, point) for point in points]:
                self.assertEqual(sentences(*message), [], message)

    def test_bounds_units_and_names(self):
        topic, payload = found(TOPICS, settable(DAMPER, step=500))
        self.assertEqual(topic, "homeassistant/number/bossd_northXXhall/air_damper/config")
        self.assertEqual({key: json.loads(payload)[key] for key in ("min", "max", "step", "unit_of_measurement", "name", "optimistic", "retain")}, {
            "min": 0, "max": 100, "step": 0.5, "unit_of_measurement": "%", "name": "supply air", "optimistic": False, "retain": False})
        self.assertEqual(json.loads(payload)["command_topic"], "north/hall/point/air.damper/set")
        self.assertEqual(json.loads(payload)["device"]["via_device"], "bossd_northXXhall")
        self.assertNotIn("device_class", json.loads(payload))
        self.assertEqual({key: told(ROOM)[key] for key in ("device_class", "unit_of_measurement", "name")},
                         {"device_class": "temperature", "unit_of_measurement": "°C", "name": "set-point"})
        self.assertEqual([(one["payload_on"], one["payload_off"]) for one in (told(LAMP), told(settable(LAMP)))], [("1", "0")] * 2)
        self.assertNotIn("command_topic", told(DAMPER))

    def test_states_with_names(self):
        named = {"states": ("off", "low", "hi\"gh")}
        self.assertEqual(told(settable(FAN, **named))["options"], ["off", "low", 'hi"gh'])
        self.assertEqual(told(settable(FAN, **named))["command_template"], '{{ ["off", "low", "hi\\"gh"].index(value) + 1 }}')
        self.assertEqual(told(settable(FAN))["options"], ["1", "2", "3"])
        for point in (settable(FAN, **named), Point(**{**FAN.__dict__, **named})):
            self.assertEqual(sentences(*found(TOPICS, point)), [])

    def test_bounds_at_their_limits(self):
        for least, most in ((5, 5), (-10**15, 10**15), (0, 1), (-1, 0)):
            for can in (True, False):
                self.assertEqual(sentences(*found(TOPICS, Point("a", "analog", least, most, settable=can, step=1))), [])

    def test_each_class_that_may_be_named(self):
        for one, units in OF_UNITS.items():
            for unit in units:
                for can in (True, False):
                    self.assertEqual(sentences(*found(TOPICS, Point("a", "analog", 0, 9, unit, settable=can, device_class=one))), [], (one, unit))
        for one in OF_BINARY:
            self.assertEqual(sentences(*found(TOPICS, Point("a", "binary", device_class=one))), [], one)
        for one in OF_SWITCH:
            self.assertEqual(sentences(*found(TOPICS, Point("a", "binary", settable=True, device_class=one))), [], one)
        self.assertNotIn("device_class", told(Point("a", "analog", 0, 9, "degC", device_class="")))

    def test_the_validator_finds_what_is_wrong(self):
        topic, payload = found(TOPICS, settable(DAMPER))
        good = json.loads(payload)
        for wrong in ({**good, "minimum": 1}, {**good, "min": "0"}, {**good, "min": 100}, {**good, "optimistic": 1}, {**good, "device": {}},
                      {**good, "device_class": "temperature"}, {**good, "availability_topic": "a"}, {**good, "command_topic": "a/#"},
                      {key: value for key, value in good.items() if key != "command_topic"}):
            self.assertTrue(sentences(topic, json.dumps(wrong)), wrong)
        self.assertTrue(sentences(topic.replace("air_damper", "air.damper"), payload))


class Names(unittest.TestCase):
    def test_no_two_share_a_topic(self):
        names = ["a.b", "a_b", "a-b", "a__b", "a._b", "a_.b", "a..b", ".", "_", "-"]
        self.assertEqual(len({escaped(name) for name in names}), len(names))
        for name in names:
            self.assertEqual(TOPICS.command_of(TOPICS.of(name, "set")), (name, "set"))
            self.assertEqual(sentences(*found(TOPICS, Point(name, "binary", settable=True))), [])
        bases = ["a/b", "aXXb", "aX/b", "a/Xb", "a_b"]
        self.assertEqual(len({Topics(base).node for base in bases}), len(bases))

    def test_topics_of_others(self):
        for topic in ("north/point/a/set", "north/hall/point/A/set", "north/hall/point/a/b/set", "north/hall/point/a/state",
                      "xnorth/hall/point/a/set", "north/hall/point//set"):
            self.assertIsNone(TOPICS.command_of(topic))

    def test_levels(self):
        for base in ("", "/a", "a/", "a//b", "a+", "#", "$SYS", "a.b", "a" * 129, "a\n", 7):
            self.assertFalse(is_levels(base, 128), base)
        for base in ("a", "a/b/C-1_x", "a" * 128):
            self.assertTrue(is_levels(base, 128), base)


class Values(unittest.TestCase):
    def test_they_are_written_without_needless_digits(self):
        for value, text in ((45_000, "45"), (45_100, "45.1"), (1, "0.001"), (100_000, "100"), (0, "0"), (-500, "-0.5")):
            self.assertEqual((text_of(DAMPER, value)), text)
        self.assertEqual((text_of(LAMP, 1), text_of(FAN, 3)), ("1", "3"))

    def test_they_are_read_strictly(self):
        for point, payload, value in ((DAMPER, b"45", 45_000), (DAMPER, b"45.001", 45_001), (DAMPER, b"4.5e1", 45_000), (LAMP, b"1", 1), (FAN, b"3.0", 3)):
            self.assertEqual(value_of(point, payload), value)
        for point, payload in ((DAMPER, b""), (DAMPER, b"on"), (DAMPER, b"0.0001"), (DAMPER, b"100.001"), (DAMPER, b"nan"), (DAMPER, b"inf"),
                               (DAMPER, b"1e999999"), (DAMPER, "٣".encode()), (DAMPER, b"\xff\0"), (LAMP, b"2"), (LAMP, b"ON"), (FAN, b"0"),
                               (FAN, b"1.5"), (DAMPER, b"1" * 65), (DAMPER, b"-0.001")):
            with self.assertRaises(ValueError, msg=payload):
                value_of(point, payload)

    def test_what_is_told_of_a_point(self):
        self.assertEqual(retained(TOPICS, ROOM, State(21_500, "lease", "settled", 12, "mqtt", 1_800_000_000_000)), {
            "north/hall/point/room.set-point/value": "21.5",
            "north/hall/point/room.set-point/state":
                '{"value":21.5,"unit":"°C","from":"lease","priority":12,"owner":"mqtt","until":1800000000000,"device":"settled"}'})
        self.assertEqual(json.loads(retained(TOPICS, LAMP, State(0, "default", "failed"))["north/hall/point/lamp/state"]), {
            "value": 0, "unit": None, "from": "default", "priority": None, "owner": None, "until": None, "device": "failed"})


class TheOutbox(unittest.TestCase):
    def next(self, box, number):
        following = box.next()
        if following is not None:
            box.sent(number, following[0])
        return following

    def test_it_keeps_the_last_of_each_topic(self):
        box = Outbox(window=2)
        box.want({"a": "1", "b": "1", "c": "1"})
        self.assertEqual([self.next(box, number) for number in (1, 2, 3)], [("a", "1"), ("b", "1"), None])
        box.want({"a": "2"})
        box.want({"a": "3"})
        box.acknowledged(2)
        self.assertEqual(self.next(box, 4), ("c", "1"))              # a's first is under way still
        box.acknowledged(1)
        self.assertEqual(self.next(box, 5), ("a", "3"))
        box.acknowledged(4)
        box.acknowledged(5)
        self.assertTrue(box.is_empty)

    def test_what_was_under_way_when_the_broker_was_lost_is_not_overtaken(self):
        box = Outbox()
        box.want({"a": "1", "b": "1"})
        self.assertEqual(self.next(box, 1), ("a", "1"))
        box.lost()
        box.want({"a": "2"})
        self.assertEqual([self.next(box, 2), self.next(box, 3)], [("b", "1"), None])
        box.acknowledged(1)                                          # paho sent it again, and it came before
        self.assertEqual(self.next(box, 4), ("a", "2"))

    def test_all_goes_out_again(self):
        box = Outbox()
        box.want({"a": "1", "b": "1"})
        for number in (1, 2):
            self.next(box, number)
            box.acknowledged(number)
        self.assertTrue(box.is_empty)
        box.forget("b")
        box.lost()
        self.assertEqual([self.next(box, 3), self.next(box, 4)], [("a", "1"), None])

    def test_how_long_it_took(self):
        moments = iter((10.0, 12.5))
        box = Outbox(clock=lambda: next(moments))
        box.want({"a": "1"})
        self.next(box, 7)
        self.assertEqual((box.acknowledged(8), box.acknowledged(7)), (None, 2.5))


class Asked(unittest.TestCase):
    ONE = Settable(12, 5 * common.MINUTE, 2 * common.HOUR, common.MINUTE, ())

    def test_values_and_objects(self):
        for payload, wish in ((b"45", Wish(45_000, 7_200_000, None)), (b'{"value":45}', Wish(45_000, 7_200_000, None)),
                              (b' {"value":45.001,"for":"30m","id":"x"}', Wish(45_001, 1_800_000, "x")),
                              (b'{"value":"45","for":"2h"}', Wish(45_000, 7_200_000, None))):
            self.assertEqual(set_of(DAMPER, self.ONE, payload), wish)
        self.assertEqual((release_of(b""), release_of(b"\xff"), release_of(b'{"id":"y"}')), (Wish(None, 0, None), Wish(None, 0, None), Wish(None, 0, "y")))

    def test_what_is_no_command(self):
        for payload in (b"{", b'{"value":}', b'{"value":true}', b'{"value":null}', b'{"value":[45]}', b"{}", b'{"value":45,"for":"3h"}',
                        b'{"value":45,"for":"0s"}', b'{"value":45,"for":60}', b'{"value":45,"for":"soon"}', b'{"value":45,"id":7}',
                        b'{"value":45,"id":""}', b'{"value":45,"id":"' + b"x" * 65 + b'"}', b"[45]", b"\xff", b"{" * 1_000, b'{"a":' * 200,
                        b'{"value":NaN}', b'{"value":1e400}', b'{"value":' + b"9" * 900 + b"}", b"1" * 1_025, b'{"value":"\xc3\xa9"}'):
            with self.assertRaises(Unfit, msg=payload):
                set_of(DAMPER, self.ONE, payload)
        with self.assertRaises(Unfit):
            release_of(b"x" * 1_025)

    def test_a_rate(self):
        moments = [0.0]
        bucket = Bucket(10, lambda: moments[0])
        self.assertEqual([bucket.wait() for _ in range(20)], [0.0] * 20)      # those of two seconds at once
        self.assertAlmostEqual(bucket.wait(), 0.1)
        moments[0] = 1.1
        self.assertEqual([bucket.wait() for _ in range(10)], [0.0] * 10)
        self.assertAlmostEqual(bucket.wait(), 0.1)


class Metrics(unittest.TestCase):
    def test_a_histogram(self):
        one = metrics.Histogram()
        for seconds in (0.005, 0.2, 100.0):
            one.take(seconds)
        lines = list(one.lines("x"))
        self.assertEqual([lines[0], lines[4], lines[5], *lines[-3:]], [
            'x_bucket{le="0.005"} 1', 'x_bucket{le="0.1"} 1', 'x_bucket{le="0.25"} 2', 'x_bucket{le="+Inf"} 3', "x_sum 100.205", "x_count 3"])


if __name__ == "__main__":
    unittest.main()
