#!/usr/bin/env python3
"""Tests of zumelivon.py: python3 test_zumelivon.py"""
import threading
import unittest

import zumelivon as z
from zumelivon import Machine, Refused, Request, Signal, Stopped, Timer

MINUTE = Timer(z.NAMED_TIMER, 1)
LAMP = """{
  "args": ["left"], "context": { "left": 0 }, "initial": "off",
  "states": {
    "off": { "on": { "cast press": { "guard": "left > 0", "target": "on" } } },
    "on": {
      "entry": { "assign": { "left": "left - 1" } },
      "after": { "10000": "off" },
      "on": {
        "call say": { "actions": { "reply": "said", "with": "event" } },
        "cast tell": { "actions": { "send": "told", "with": "'a text'", "to": "event" } },
        "cast end": { "stop": 17 } } } },
  "last": "left" }"""


class Told:
    """Answers each event by what it was told, and keeps what it was asked."""

    def __init__(self, *answers):
        self.answers, self.asked, self.entered = list(answers), [], []

    def handle(self, machine, event):
        self.asked.append(event)
        answer = self.answers.pop(0)
        if isinstance(answer, Exception):
            raise answer
        return answer

    def enter(self, machine, before, after, data):
        self.entered.append((before, after, data))
        return z.keep(data=data + 1)

    def terminate(self, machine, reason, state, data):
        return reason * 100 + state * 10 + data


class Refusing:
    """The library, but for want of memory at each turn."""

    def __init__(self, library):
        self.library = library

    def __getattr__(self, name):
        return (lambda *_: z.NO_MEMORY) if name == "zumelivon_turn" else getattr(self.library, name)


class Hosted(unittest.TestCase):
    def setUp(self):
        self.table = z.Table()
        self.machine = self.table.start(0, 1, 5)

    def tearDown(self):
        self.table.close()

    def turn(self, *answers, now=0):
        module = Told(*answers)
        return self.table.turn(self.machine, now, module), module

    def refuses(self, answer, call, *words):
        with self.assertRaises(Refused) as raised:
            call(*words)
        self.assertEqual(raised.exception.answer, answer)
        return raised.exception

    def test_a_call_and_its_reply(self):
        request = self.table.call(self.machine, 9, b"ask")
        self.assertEqual(self.table.collect(request), z.WAITING)
        report, module = self.turn(z.keep(z.reply(request, 10, b"answer" * 100), data=6))
        event = module.asked[0]
        self.assertEqual((event.kind, event.request, event.code, event.bytes), (z.CALL, request, 9, b"ask"))
        self.assertEqual((event.state, event.data), (1, 5))
        self.assertEqual((report.event, report.done, report.replied), (request.number, z.FINISHED, [request]))
        self.assertEqual(self.table.collect(request), (10, b"answer" * 100))
        self.assertEqual(self.table.collect(request), z.NO_REQUEST)
        self.assertEqual(self.table.look(self.machine).data, 6)

    def test_a_postponed_event_comes_again_behind_a_state_change(self):
        first = self.table.info(self.machine, 1)
        self.assertEqual(self.turn(z.keep(z.postpone()))[0].done, z.POSTPONED)
        self.assertIsNone(self.turn()[0])
        self.table.cast(self.machine, 2)
        self.turn(z.next_state(2, 0, z.insert(3, b"in")))
        report, module = self.turn(z.keep())
        self.assertEqual((module.asked[0].kind, module.asked[0].bytes), (z.INTERNAL, b"in"))
        self.assertEqual(self.turn(z.keep())[0].event, first)

    def test_time_outs(self):
        self.table.cast(self.machine, 1)
        sets = z.set_timer(MINUTE, 60_000, 7, b"over"), z.set_timer(Timer(z.EVENT_TIMER), None)
        report, _ = self.turn(z.keep(*sets), now=10)
        self.assertIn((MINUTE, z.TIMER_SET, 60_000), report.set)
        self.assertIn((Timer(z.EVENT_TIMER), z.TIMER_SET, None), report.set)
        self.assertEqual(self.table.look(self.machine).due, 60_010)
        self.assertEqual(self.table.tick(self.machine, 60_009), 0)
        self.assertEqual(self.table.tick(self.machine, 60_010), 1)
        event = self.turn(z.keep(z.update(MINUTE, 8), z.cancel(Timer(z.STATE_TIMER))))[1].asked[0]
        self.assertEqual((event.kind, event.timer, event.code, event.bytes), (z.TIMEOUT, MINUTE, 7, b"over"))

    def test_messages(self):
        self.table.cast(self.machine, 1)
        self.assertEqual(self.turn(z.keep(z.send(77, 4, b"x" * 1000)))[0].sent, [1])
        self.assertEqual(self.table.take_out(self.machine), (77, 1, (4, b"x" * 1000)))
        self.assertIsNone(self.table.take_out(self.machine))

    def test_ends(self):
        early, late = self.table.call(self.machine, 1), self.table.call(self.machine, 1)
        self.refuses(z.INVALID, self.turn, z.stop(3, z.cancel(MINUTE)))
        self.assertEqual(self.table.look(self.machine).waiting, 2)
        report, _ = self.turn(z.stop(3, z.reply(early, 8), data=4))
        self.assertEqual((report.done, report.reason, report.word), (z.HAS_ENDED, 3, 314))
        self.assertEqual(self.table.look(self.machine).ended, (3, 314))
        self.assertEqual(self.table.collect(early), (8, b""))
        self.assertEqual(self.table.collect(late), Stopped(3))
        self.refuses(z.ENDED, self.table.cast, self.machine, 1)
        self.refuses(z.ENDED, self.table.stop, self.machine, 1)
        self.table.remove(self.machine)
        self.refuses(z.NO_SUCH_MACHINE, self.table.look, self.machine)

    def test_an_end_and_a_reply_from_outside(self):
        request = self.table.call(self.machine, 1)
        self.assertTrue(self.table.reply(request, 2, b"yes"))
        self.assertFalse(self.table.reply(request, 2, b"yes"))
        self.table.stop(self.machine, 2, Told())
        self.assertEqual(self.table.look(self.machine).ended, (2, 215))
        self.assertEqual(self.table.collect(request), (2, b"yes"))

    def test_enter_calls(self):
        self.machine = self.table.start(0, 1, 5, entered=z.keep(z.set_timer(Timer(z.STATE_TIMER), 9), data=6))
        self.assertEqual(self.table.look(self.machine)[:2], (1, 6))
        for _ in range(3):
            self.table.cast(self.machine, 1)
        module = Told(z.next_state(2, 0), z.next_state(2, 0), z.repeat())
        self.assertEqual(self.table.turn_until_idle(self.machine, 0, module), 3)
        self.assertEqual(module.entered, [(1, 2, 0), (2, 2, 0)])
        self.assertEqual(self.table.look(self.machine).data, 1)
        self.machine = self.table.start(0, 1, 5, entered=z.stop(4), word=9)
        self.assertEqual(self.table.look(self.machine).ended, (4, 9))

    def test_a_start_with_actions(self):
        machine = self.table.start(100, 1, 5, [z.insert(7), z.send(3), z.set_timer(MINUTE, 5)])
        report = self.table.report_of_start
        self.assertEqual((report.done, report.event, len(report.inserted), report.sent), (z.STARTED, None, 1, [1]))
        self.assertEqual(self.table.look(machine).due, 105)

    def test_an_exception_leaves_the_event_and_the_table(self):
        self.table.cast(self.machine, 1)
        with self.assertRaises(ZeroDivisionError):
            self.turn(ZeroDivisionError())
        view = self.table.look(self.machine)
        self.assertEqual((view.waiting, view.has_event, view.latest), (1, True, 0))
        self.assertEqual(self.turn(z.keep())[0].done, z.FINISHED)

    def test_a_turn_without_memory_is_made_again_with_the_same_answer(self):
        self.table.cast(self.machine, 1)
        z._library = Refusing(z._library)
        self.refuses(z.NO_MEMORY, self.turn, z.keep(data=7))
        z._library = z._library.library
        report, module = self.turn()
        self.assertEqual((report.done, module.asked), (z.FINISHED, []))
        self.assertEqual(self.table.look(self.machine).data, 7)

    def test_moments_and_numbers_that_are_too_large(self):
        self.table.cast(self.machine, 1)
        self.refuses(z.BAD_MOMENT, self.table.turn, self.machine, 1 << 63, Told())
        self.refuses(z.BAD_MOMENT, self.table.tick, self.machine, 1 << 63)
        self.refuses(z.BAD_MOMENT, self.table.start, 1 << 63, 0)
        for call in (
            lambda: self.table.cast(self.machine, 1 << 64),
            lambda: self.table.tick(self.machine, -1),
            lambda: self.table.stop(self.machine, 1 << 32),
            lambda: self.turn(z.next_state(-1, 0)),
            lambda: self.turn(z.keep(z.set_timer(MINUTE, 1 << 32))),
        ):
            self.assertRaises(OverflowError, call)
        self.assertEqual(self.table.look(self.machine).waiting, 1)

    def test_a_closed_table(self):
        self.table.close()
        self.refuses(z.CLOSED, self.table.look, self.machine)
        self.table.close()

    def test_threads_take_turns(self):
        def work(machine):
            for _ in range(300):
                self.table.cast(machine, 1)
                self.table.turn(machine, 0, Told(z.keep(data=self.table.look(machine).data + 1)))

        machines = [self.table.start(0, 1) for _ in range(4)]
        threads = [threading.Thread(target=work, args=(it,)) for it in machines]
        for it in threads:
            it.start()
        for it in threads:
            it.join()
        self.assertEqual([self.table.look(it).data for it in machines], [300] * 4)


class Described(unittest.TestCase):
    def setUp(self):
        self.table = z.Table()
        self.lamp = self.table.describe(LAMP)
        self.machine = self.table.start_described(self.lamp, 0, 3)
        self.cast("press")

    def tearDown(self):
        self.table.close()

    def symbol(self, name):
        return self.table.number_of(self.lamp, name)

    def cast(self, name, value=None):
        self.table.post_signal(self.machine, z.CAST, Signal(self.symbol(name), value))
        self.assertEqual(self.table.run(self.machine, 0), (1, False))

    def state(self):
        return self.table.name_of(self.lamp, self.table.look(self.machine).state)

    def refuses(self, answer, call, *words):
        return Hosted.refuses(self, answer, call, *words)

    def test_a_lamp_goes_out_by_itself(self):
        self.assertEqual(self.state(), "on")
        self.assertEqual(self.table.tick(self.machine, self.table.look(self.machine).due), 1)
        self.assertEqual(self.table.run(self.machine, 10_000, 0), (0, True))
        self.assertEqual(self.table.run(self.machine, 10_000), (1, False))
        self.assertEqual(self.state(), "off")

    def test_values_come_back_as_they_were(self):
        for value in (None, 0, (1 << 64) - 1, "a täxt" * 100, "", Request(5, 6), Machine(7)):
            signal = Signal(self.symbol("say"), value)
            request = Request(self.machine, self.table.post_signal(self.machine, z.CALL, signal))
            self.assertEqual(self.table.collect_signal(request), z.WAITING)
            self.table.run(self.machine, 0)
            self.assertEqual(self.table.collect_signal(request), Signal(self.symbol("said"), value))
            self.assertEqual(self.table.collect_signal(request), z.NO_REQUEST)

    def test_messages(self):
        self.cast("tell", Machine(99))
        self.assertEqual(self.table.take_out_signal(self.machine), (99, 1, (self.symbol("told"), "a text")))
        self.assertIsNone(self.table.take_out_signal(self.machine))

    def test_an_end(self):
        request = Request(self.machine, self.table.post_signal(self.machine, z.CALL, Signal(self.symbol("press"))))
        self.table.run(self.machine, 0)
        self.cast("end")
        self.assertEqual(self.table.look(self.machine).ended, (17, 2))
        self.assertEqual(self.table.collect_signal(request), Stopped(17))
        self.assertEqual(self.refuses(z.ENDED, self.table.run, self.machine, 0).detail, 0)

    def test_faults_and_names(self):
        told = self.refuses(z.FAULTY, self.table.describe, '{ "initial": "a", "states": { "b": {} } }')
        self.assertIn('"a"', told.detail)
        self.refuses(z.NO_SUCH_NAME, self.table.number_of, self.lamp, "pres")
        self.refuses(z.NO_SUCH_NAME, self.table.name_of, self.lamp, 2)
        self.refuses(z.NO_SUCH_DESCRIPTION, self.table.number_of, self.lamp + 1, "press")

    def test_starts_that_start_nothing(self):
        choosy = self.table.describe(
            """{ "args": ["a"], "context": { "a": 0 },
                 "start": [ { "guard": "arg.a == 1", "target": "s" }, { "guard": "arg.a == 2", "stop": 9 } ],
                 "states": { "s": {} } }"""
        )
        self.table.start_described(choosy, 0, 1)
        self.assertEqual(self.refuses(z.STOPPED, self.table.start_described, choosy, 0, 2).detail, 9)
        self.refuses(z.IGNORED, self.table.start_described, choosy, 0, 3)


if __name__ == "__main__":
    unittest.main()
