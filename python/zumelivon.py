"""The event engine of Erlang's gen_statem, for Python: machines that postpone events, time out, reply, and send each other
messages. The engine is proved, and c/zumelivon.h says what each of its calls does.

A module decides: an object with a method `handle(machine, event)`, which answers by next_state, keep, repeat or stop.
It may have `enter(machine, before, after, data)`, which answers by keep or stop, and `terminate(machine, reason, state,
data)`, which answers the last word. The table does the rest:

    with Table() as table:
        machine = table.start(0, state=0, data=0)
        request = table.call(machine, 1, b"please")
        table.turn_until_idle(machine, 0, module)
        reply = table.collect(request)

Machines, states, data and moments are numbers; moments are milliseconds of any clock that does not go back. A content is a
code and bytes. The callbacks run between two calls of the library, so an exception in one leaves table and event as they
were. What a call refuses is raised as Refused, and has changed nothing, but where its comment says what.

The library is libzumelivon.so in the folder that ZUMELIVON_LIB names, or in `out` or `lib` beside this module's folder.
"""
import ctypes
import os
from collections import namedtuple
from ctypes import POINTER, c_size_t, c_uint8, c_uint32, c_uint64, c_void_p

VERSION = 1

# What calls return.
DONE, NO_MEMORY, ENDED, EXHAUSTED, BAD_MOMENT, NO_SUCH_NAME, NO_SUCH_MACHINE, FULL = 0, 1, 2, 3, 4, 8, 9, 11
NOTHING, INVALID, TOO_SMALL, STOPPED, NOT_NEXT, CLOSED, OPEN, GONE, WRONG_VERSION = range(100, 109)
IGNORED, FAULTY, NO_SUCH_DESCRIPTION = 110, 111, 112
# Kinds of events. The first three are also ways to post one.
CALL, CAST, INFO, TIMEOUT, INTERNAL = range(5)
# Timers.
EVENT_TIMER, STATE_TIMER, NAMED_TIMER = range(3)
# Answers.
NONE, NEXT_STATE, KEEP_STATE, KEEP_STATE_AND_DATA, REPEAT_STATE, REPEAT_STATE_AND_DATA, STOP, STOP_AND_REPLY = range(8)
# Actions.
REPLY, POSTPONE, NEXT_EVENT, SET, CANCEL, UPDATE, SEND, HIBERNATE = range(1, 9)
# What became of an event, or of a start.
STARTED, FINISHED, POSTPONED, HAS_ENDED = range(4)
# Lists of a report.
REPLIED, INSERTED, SET_TIMERS, SENT = range(4)
# What was asked of a timer.
TIMER_SET, TIMER_CANCELLED, TIMER_UPDATED = range(3)
# Values of a signal.
NO_VALUE, NUMBER, CALL_TAG, MACHINE, TEXT = range(5)
# Names of a description.
SYMBOL, STATE, TIMER_NAME = range(3)

# ---- declarations ----


class _Struct(ctypes.Structure):
    """A struct whose numbers are checked: ctypes would cut them off."""

    def __setattr__(self, name, value):
        _check(name, value, getattr(type(self), name).size)
        super().__setattr__(name, value)


def _check(name, value, size):
    if isinstance(value, int) and not 0 <= value < 1 << 8 * size:
        raise OverflowError(f"{name} is {value}, and not from 0 to 2^{8 * size} - 1")


class _Table(ctypes.Structure):
    _fields_ = [("at", c_void_p)]


class _Begin(_Struct):
    _fields_ = [("state", c_uint64), ("data", c_uint64), ("enters", c_uint32), ("word", c_uint32)]


class _Answer(_Struct):
    _fields_ = [("what", c_uint32), ("reason", c_uint32), ("has_data", c_uint32), ("unused", c_uint32)]
    _fields_ += [("state", c_uint64), ("data", c_uint64)]


class _Action(_Struct):
    _fields_ = [("what", c_uint32), ("kind", c_uint32), ("postpone", c_uint32), ("timer", c_uint32)]
    _fields_ += [("name", c_uint32), ("time", c_uint32), ("infinite", c_uint32), ("unused", c_uint32)]
    _fields_ += [("machine", c_uint64), ("request", c_uint64), ("code", c_uint64), ("from", c_uint64), ("length", c_uint64)]


class _Event(_Struct):
    _fields_ = [("number", c_uint64), ("kind", c_uint32), ("timer", c_uint32), ("name", c_uint32), ("enters", c_uint32)]
    _fields_ += [("machine", c_uint64), ("request", c_uint64), ("code", c_uint64), ("length", c_uint64)]
    _fields_ += [("state", c_uint64), ("data", c_uint64)]


class _Content(_Struct):
    _fields_ = [("code", c_uint64), ("length", c_uint64), ("reason", c_uint32), ("unused", c_uint32)]


class _Message(_Struct):
    _fields_ = [("target", c_uint64), ("number", c_uint64), ("code", c_uint64), ("length", c_uint64)]


class _Report(_Struct):
    _fields_ = [("event", c_uint64), ("has_event", c_uint32), ("done", c_uint32), ("reason", c_uint32), ("word", c_uint32)]
    _fields_ += [("before", c_uint64), ("after", c_uint64), ("calls", c_uint64), ("replied", c_uint64)]
    _fields_ += [("inserted", c_uint64), ("set", c_uint64), ("sent", c_uint64)]


class _Listed(_Struct):
    _fields_ = [("machine", c_uint64), ("number", c_uint64), ("timer", c_uint32), ("name", c_uint32)]
    _fields_ += [("decision", c_uint32), ("time", c_uint32), ("infinite", c_uint32), ("unused", c_uint32)]


class _Machine(_Struct):
    _fields_ = [("state", c_uint64), ("data", c_uint64), ("latest", c_uint64), ("waiting", c_uint64), ("due", c_uint64)]
    _fields_ += [("has_due", c_uint32), ("has_event", c_uint32), ("has_message", c_uint32), ("ended", c_uint32)]
    _fields_ += [("reason", c_uint32), ("word", c_uint32)]


class _Signal(_Struct):
    _fields_ = [("symbol", c_uint32), ("what", c_uint32), ("number", c_uint64), ("request", c_uint64)]
    _fields_ += [("from", c_uint64), ("length", c_uint64)]


_TABLE = ("table", POINTER(_Table))
_ID = ("id", c_uint64)
_BYTES = [("bytes", POINTER(c_uint8)), ("length", c_size_t)]
_SIZED_BYTES = [("bytes", POINTER(c_uint8)), ("size", c_size_t)]
_ROOM = [("room", POINTER(c_uint8)), ("capacity", c_size_t)]

# The parameters of each function. Each answers a c_uint32.
DECLARED = {
    "zumelivon_version": [],
    "zumelivon_open": [_TABLE, ("version", c_uint32)],
    "zumelivon_close": [_TABLE],
    "zumelivon_tick": [_TABLE, _ID, ("now", c_uint64), ("expired", POINTER(c_uint64))],
    "zumelivon_look": [_TABLE, _ID, ("machine", POINTER(_Machine))],
    "zumelivon_stop": [_TABLE, _ID, ("reason", c_uint32), ("word", c_uint32)],
    "zumelivon_remove": [_TABLE, _ID],
    "zumelivon_list": [_TABLE, ("list", c_uint32), ("index", c_uint64), ("listed", POINTER(_Listed))],
    "zumelivon_start": [
        _TABLE, ("now", c_uint64), ("begin", POINTER(_Begin)), ("actions", POINTER(_Action)), ("count", c_size_t),
        ("entered", POINTER(_Answer)), ("enter_actions", POINTER(_Action)), ("enter_count", c_size_t), *_BYTES,
        ("id", POINTER(c_uint64)), ("report", POINTER(_Report)),
    ],
    "zumelivon_post": [_TABLE, _ID, ("entry", c_uint32), ("code", c_uint64), *_BYTES, ("number", POINTER(c_uint64))],
    "zumelivon_next": [_TABLE, _ID, ("event", POINTER(_Event)), *_ROOM],
    "zumelivon_turn": [
        _TABLE, _ID, ("number", c_uint64), ("now", c_uint64), ("handled", POINTER(_Answer)),
        ("actions", POINTER(_Action)), ("count", c_size_t), ("entered", POINTER(_Answer)),
        ("enter_actions", POINTER(_Action)), ("enter_count", c_size_t), *_BYTES, ("word", c_uint32),
        ("report", POINTER(_Report)),
    ],
    "zumelivon_collect": [_TABLE, _ID, ("number", c_uint64), ("content", POINTER(_Content)), *_ROOM],
    "zumelivon_reply": [_TABLE, _ID, ("number", c_uint64), ("code", c_uint64), *_BYTES],
    "zumelivon_take_out": [_TABLE, _ID, ("message", POINTER(_Message)), *_ROOM],
    "zumelivon_describe": [
        _TABLE, ("text", POINTER(c_uint8)), ("size", c_size_t), ("description", POINTER(c_uint64)), *_ROOM,
        ("length", POINTER(c_uint64)),
    ],
    "zumelivon_number_of": [
        _TABLE, ("description", c_uint64), ("kind", c_uint32), ("name", POINTER(c_uint8)), ("size", c_size_t),
        ("number", POINTER(c_uint64)),
    ],
    "zumelivon_name_of": [
        _TABLE, ("description", c_uint64), ("kind", c_uint32), ("number", c_uint64), *_ROOM, ("length", POINTER(c_uint64)),
    ],
    "zumelivon_start_described": [
        _TABLE, ("description", c_uint64), ("now", c_uint64), ("values", POINTER(_Signal)), ("count", c_size_t),
        *_SIZED_BYTES, ("id", POINTER(c_uint64)), ("report", POINTER(_Report)),
    ],
    "zumelivon_post_signal": [
        _TABLE, _ID, ("entry", c_uint32), ("signal", POINTER(_Signal)), *_SIZED_BYTES, ("number", POINTER(c_uint64)),
    ],
    "zumelivon_run": [
        _TABLE, _ID, ("now", c_uint64), ("at_most", c_uint64), ("turns", POINTER(c_uint64)), ("more", POINTER(c_uint32)),
    ],
    "zumelivon_collect_signal": [
        _TABLE, _ID, ("number", c_uint64), ("signal", POINTER(_Signal)), ("reason", POINTER(c_uint32)), *_ROOM,
    ],
    "zumelivon_take_out_signal": [
        _TABLE, _ID, ("signal", POINTER(_Signal)), ("target", POINTER(c_uint64)), ("number", POINTER(c_uint64)), *_ROOM,
    ],
}


def _load():
    top = os.path.dirname(os.path.dirname(os.path.realpath(__file__)))
    folders = [os.environ["ZUMELIVON_LIB"]] if "ZUMELIVON_LIB" in os.environ else [f"{top}/out", f"{top}/lib"]
    for folder in folders:
        if os.path.isfile(f"{folder}/libzumelivon.so"):
            # A call keeps the interpreter's lock, so no two are made on one table at once.
            library = ctypes.PyDLL(f"{folder}/libzumelivon.so")
            for name, parameters in DECLARED.items():
                function = getattr(library, name)
                function.argtypes, function.restype = [it for _, it in parameters], c_uint32
            return library
    raise OSError(
        "there is no libzumelivon.so: make it by tools/archive at the top of the repository, or set ZUMELIVON_LIB to the "
        "folder that has it"
    )


_library = None


# ---- what is handed in and out ----


class Refused(Exception):
    """A call was refused: `answer` is its number, `detail` what else is told."""

    WORDS = {
        NO_MEMORY: "there is no memory",
        ENDED: "the machine has ended",
        EXHAUSTED: "the machine's numbers are used up",
        BAD_MOMENT: "the moment is 2^63 or later",
        NO_SUCH_NAME: "the description has no such name or number",
        NO_SUCH_MACHINE: "the id names no such machine",
        FULL: "the table's ids are used up",
        INVALID: "an action or a value stands where it may not",
        STOPPED: "the start stops, for a reason",
        CLOSED: "the table is closed",
        WRONG_VERSION: "the library is of another version",
        IGNORED: "the description ignores such a start",
        FAULTY: "the description has faults",
        NO_SUCH_DESCRIPTION: "the table has no such description",
    }

    def __init__(self, answer, detail=None):
        words = self.WORDS.get(answer, f"the library answered {answer}")
        super().__init__(words if detail is None else f"{words}: {detail}")
        self.answer, self.detail = answer, detail


Request = namedtuple("Request", "machine number")
Request.__doc__ = "A call's tag: its reply is sent to it, and collected by it."
Timer = namedtuple("Timer", "timer name", defaults=[0])
Timer.__doc__ = "Timer(EVENT_TIMER), Timer(STATE_TIMER), or Timer(NAMED_TIMER, a number)."
Event = namedtuple("Event", "number kind request timer code bytes state data")
Event.__doc__ = "An event, with the machine's state and data. A call has a request, a time-out a timer."
Content = namedtuple("Content", "code bytes", defaults=[b""])
Content.__doc__ = "What an event, a reply or a message carries."
Message = namedtuple("Message", "target number content")
Message.__doc__ = "A message: the program delivers it, as an info. `number` counts those of its sender."
Stopped = namedtuple("Stopped", "reason")
Stopped.__doc__ = "No reply comes, for the machine ended for this reason."
Report = namedtuple("Report", "event done reason word before after calls replied inserted set sent")
Report.__doc__ = "What a start or a turn did: `done` is STARTED, FINISHED, POSTPONED or HAS_ENDED."
View = namedtuple("View", "state data latest waiting due has_event has_message ended")
View.__doc__ = "A machine: `due` is None where no time-out runs, `ended` a reason and a last word, or None."
Signal = namedtuple("Signal", "symbol value", defaults=[None])
Signal.__doc__ = "A symbol's number and a value: None, a number, a text, a Request, or Machine(id)."
Machine = namedtuple("Machine", "id")
Machine.__doc__ = "A machine, as the value of a signal."

# What `collect` answers where there is no reply yet, and where there is no such request, or it was collected.
WAITING, NO_REQUEST = "waiting", "no request"

Answer = namedtuple("Answer", "what state data reason actions")
Answer.__doc__ = "What a module answers. next_state, keep, repeat and stop make one."


def next_state(state, data, *actions):
    """To this state, with this data. Where it is another state, what was postponed comes again."""
    return Answer(NEXT_STATE, state, data, 0, actions)


def keep(*actions, data=None):
    """The state stays; the data too, where none is given."""
    return Answer(KEEP_STATE_AND_DATA if data is None else KEEP_STATE, 0, data, 0, actions)


def repeat(*actions, data=None):
    """The state stays and is entered again; the data stays too, where none is given."""
    return Answer(REPEAT_STATE_AND_DATA if data is None else REPEAT_STATE, 0, data, 0, actions)


def stop(reason, *replies, data=None):
    """The machine ends for this reason, behind these replies."""
    return Answer(STOP_AND_REPLY if replies else STOP, 0, data, reason, replies)


def reply(request, code=0, content=b""):
    """Replies to a call."""
    return dict(what=REPLY, machine=request.machine, request=request.number, code=code, content=content)


def postpone(says=True):
    """Postpones the event until the state changes."""
    return dict(what=POSTPONE, postpone=int(says))


def insert(code, content=b"", kind=INTERNAL, request=Request(0, 0), timer=Timer(0)):
    """Inserts an event before all that were not handled yet."""
    tag = dict(machine=request.machine, request=request.number, timer=timer.timer, name=timer.name)
    return dict(what=NEXT_EVENT, kind=kind, code=code, content=content, **tag)


def set_timer(timer, time, code=0, content=b""):
    """Sets a timer to so many milliseconds, or to None: for ever."""
    kind = dict(timer=timer.timer, name=timer.name, time=time or 0, infinite=int(time is None))
    return dict(what=SET, code=code, content=content, **kind)


def cancel(timer):
    """Cancels a timer's time-out."""
    return dict(what=CANCEL, timer=timer.timer, name=timer.name)


def update(timer, code=0, content=b""):
    """Changes what a timer's time-out will carry. Where none runs, one comes at once."""
    return dict(what=UPDATE, timer=timer.timer, name=timer.name, code=code, content=content)


def send(target, code=0, content=b""):
    """Sends a message to a machine: Table.take_out hands it out."""
    return dict(what=SEND, machine=target, code=code, content=content)


class _Flat:
    """Answers as the library reads them: all contents in one place."""

    def __init__(self):
        self.bytes, self.word = b"", 0
        self.handled, self.actions, self.count = _Answer(), (_Action * 1)(), 0
        self.entered, self.enter_actions, self.enter_count = _Answer(), (_Action * 1)(), 0

    def flat_actions(self, actions):
        flat = (_Action * max(len(actions), 1))()
        for at, action in enumerate(actions):
            content = action.get("content", b"")
            for name, value in action.items():
                if name != "content":
                    setattr(flat[at], name, value)
            setattr(flat[at], "from", len(self.bytes))
            flat[at].length = len(content)
            self.bytes += content
        return flat, len(actions)

    @staticmethod
    def flat_answer(it):
        has_data = it.data is not None
        return _Answer(it.what, it.reason, int(has_data), 0, it.state, it.data if has_data else 0)

    def put_handled(self, answer):
        self.handled = self.flat_answer(answer)
        self.actions, self.count = self.flat_actions(answer.actions)

    def put_entered(self, answer):
        self.entered = self.flat_answer(answer)
        self.enter_actions, self.enter_count = self.flat_actions(answer.actions)


def _pointer(content):
    """What points to these bytes. It is not NULL, also where there are none."""
    return ctypes.cast(ctypes.create_string_buffer(content, len(content) + 1), POINTER(c_uint8))


def _enters(event, answer):
    changes = answer.what == NEXT_STATE and answer.state != event.state
    return event.enters != 0 and (changes or answer.what in (REPEAT_STATE, REPEAT_STATE_AND_DATA))


# ---- tables ----


class Table:
    """A table of machines. It reads no clock and starts no thread: its caller decides when a turn comes."""

    def __init__(self):
        """Opens a table. Refused: NO_MEMORY, WRONG_VERSION."""
        global _library
        self._table, self._room, self._unmade = _Table(), (c_uint8 * 256)(), {}
        if _library is None:
            _library = _load()
        self._done("open", VERSION)

    def close(self):
        """Closes the table, and drops its machines. From then on each call is refused: CLOSED."""
        self._call("close")

    def __enter__(self):
        return self

    def __exit__(self, *_):
        self.close()

    def __del__(self):
        if _library is not None:
            self.close()

    def _call(self, name, *words):
        name = f"zumelivon_{name}"
        for (parameter, kind), word in zip(DECLARED[name][1:], words):
            _check(parameter, word, ctypes.sizeof(kind))
        return getattr(_library, name)(self._table, *words)

    def _done(self, name, *words):
        answer = self._call(name, *words)
        if answer != DONE:
            raise Refused(answer)

    def _with_room(self, name, words, length):
        """Makes a call that hands out bytes, with a room that is large enough for what `length` then answers."""
        while True:
            answer = self._call(name, *words[0], self._room, len(self._room), *words[1])
            if answer != TOO_SMALL or length() <= len(self._room):
                return answer
            self._room = (c_uint8 * length())()

    def _handed_out(self, length):
        return ctypes.string_at(self._room, min(length, len(self._room)))

    # Machines of either family.

    def tick(self, machine, now):
        """Tells a machine the moment, and answers how many time-outs expired. Refused: ENDED, BAD_MOMENT,
        NO_SUCH_MACHINE, NO_MEMORY."""
        expired = c_uint64()
        self._done("tick", machine, now, expired)
        return expired.value

    def look(self, machine):
        """Shows a machine. Refused: NO_SUCH_MACHINE."""
        it = _Machine()
        self._done("look", machine, it)
        due, ended = it.due if it.has_due else None, (it.reason, it.word) if it.ended else None
        return View(it.state, it.data, it.latest, it.waiting, due, bool(it.has_event), bool(it.has_message), ended)

    def stop(self, machine, reason, module=None):
        """Ends a machine for a reason. The module of a hosted one is asked for its last word. Refused: ENDED,
        NO_SUCH_MACHINE, NO_MEMORY."""
        view = self.look(machine)
        asks = view.ended is None and hasattr(module, "terminate")
        word = module.terminate(machine, reason, view.state, view.data) if asks else 0
        self._done("stop", machine, reason, word)
        self._unmade.pop(machine, None)

    def remove(self, machine):
        """Drops a machine, ended or not: its requests, replies and messages go with it. Refused: NO_SUCH_MACHINE."""
        self._done("remove", machine)
        self._unmade.pop(machine, None)

    def _report(self, it):
        return Report(
            it.event if it.has_event else None, it.done, it.reason, it.word, it.before, it.after, it.calls,
            self._listed(REPLIED, it.replied, lambda one: Request(one.machine, one.number)),
            self._listed(INSERTED, it.inserted, lambda one: one.number),
            self._listed(SET_TIMERS, it.set, self._decision),
            self._listed(SENT, it.sent, lambda one: one.number),
        )

    @staticmethod
    def _decision(one):
        time = None if one.infinite or one.decision != TIMER_SET else one.time
        return Timer(one.timer, one.name), one.decision, time

    def _listed(self, which, count, read):
        one, found = _Listed(), []
        for index in range(count):
            if self._call("list", which, index, one) == DONE:
                found.append(read(one))
        return found

    # Hosted machines.

    def start(self, now, state, data=0, actions=(), entered=None, word=0):
        """Starts a hosted machine, and answers its id. Its report is `report_of_start`.

        With `entered` it has enter calls, and this answers the first; where that stops, `word` is the last word, and the
        machine has ended. Refused: BAD_MOMENT, EXHAUSTED, FULL, INVALID, NO_MEMORY.
        """
        flat, machine, report = _Flat(), c_uint64(), _Report()
        flat.actions, flat.count = flat.flat_actions(actions)
        if entered is not None:
            flat.put_entered(entered)
        begin = _Begin(state, data, int(entered is not None), word)
        self._done(
            "start", now, begin, flat.actions, flat.count, flat.entered, flat.enter_actions, flat.enter_count,
            _pointer(flat.bytes), len(flat.bytes), machine, report,
        )
        self.report_of_start = self._report(report)
        return machine.value

    def post(self, machine, entry, code, content=b""):
        """Posts an event, and answers its number. Refused: ENDED, EXHAUSTED, NO_SUCH_MACHINE, INVALID, NO_MEMORY."""
        number = c_uint64()
        self._done("post", machine, entry, code, _pointer(content), len(content), number)
        return number.value

    def call(self, machine, code, content=b""):
        """Posts a call, and answers its request. Refused as post."""
        return Request(machine, self.post(machine, CALL, code, content))

    def cast(self, machine, code, content=b""):
        """Posts a cast. Refused as post."""
        return self.post(machine, CAST, code, content)

    def info(self, machine, code, content=b""):
        """Posts an info. Refused as post."""
        return self.post(machine, INFO, code, content)

    def _next(self, machine):
        event = _Event()
        answer = self._with_room("next", ((machine, event), ()), lambda: event.length)
        if answer not in (DONE, NOTHING):
            raise Refused(answer)
        return event if answer == DONE else None

    def _ask(self, machine, it, module):
        request = Request(it.machine, it.request) if it.kind == CALL else None
        timer = Timer(it.timer, it.name) if it.kind == TIMEOUT else None
        content = self._handed_out(it.length)
        event = Event(it.number, it.kind, request, timer, it.code, content, it.state, it.data)
        flat, answer = _Flat(), module.handle(machine, event)
        state = answer.state if answer.what == NEXT_STATE else it.state
        data = it.data if answer.data is None else answer.data
        flat.put_handled(answer)
        if _enters(it, answer) and hasattr(module, "enter"):
            answer = module.enter(machine, it.state, state, data)
            data = data if answer.data is None else answer.data
            flat.put_entered(answer)
        if answer.what in (STOP, STOP_AND_REPLY) and hasattr(module, "terminate"):
            flat.word = module.terminate(machine, answer.reason, state, data)
        return flat

    def turn(self, machine, now, module):
        """Asks the module about the next event, makes the turn, and answers its report; None where there is no event.

        Refused with NO_SUCH_MACHINE, and BAD_MOMENT: the module was not asked. NO_MEMORY: the event waits as before, and
        the next turn of this machine hands in the same answer, without asking again. EXHAUSTED, INVALID: the event waits
        as before, and the module will be asked again.
        """
        event = self._next(machine)
        if event is None:
            return None
        if not 0 <= now < 1 << 63:
            raise Refused(BAD_MOMENT)
        number, flat = self._unmade.pop(machine, (None, None))
        if number != event.number:
            flat = self._ask(machine, event, module)
        report = _Report()
        answer = self._call(
            "turn", machine, event.number, now, flat.handled, flat.actions, flat.count, flat.entered, flat.enter_actions,
            flat.enter_count, _pointer(flat.bytes), len(flat.bytes), flat.word, report,
        )
        if answer == NO_MEMORY:
            self._unmade[machine] = event.number, flat
        if answer != DONE:
            raise Refused(answer)
        return self._report(report)

    def turn_until_idle(self, machine, now, module):
        """Makes turns until there is no event, or the machine has ended, and answers how many. Refused as turn: what was
        made before stays made."""
        turns = 0
        while self.turn(machine, now, module) is not None:
            turns += 1
        return turns

    def collect(self, request):
        """Takes the reply to a call out, once: a Content, Stopped, WAITING or NO_REQUEST. Refused: NO_SUCH_MACHINE."""
        it = _Content()
        answer = self._with_room("collect", ((*request, it), ()), lambda: it.length)
        return self._collected(answer, lambda: Content(it.code, self._handed_out(it.length)), it)

    @staticmethod
    def _collected(answer, read, why):
        if answer == DONE:
            return read()
        if answer == STOPPED:
            return Stopped(why.reason)
        if answer in (NOTHING, GONE):
            return WAITING if answer == NOTHING else NO_REQUEST
        raise Refused(answer)

    def reply(self, request, code, content=b""):
        """Answers a call from outside, and whether it was open. Refused: NO_SUCH_MACHINE, NO_MEMORY."""
        answer = self._call("reply", *request, code, _pointer(content), len(content))
        if answer not in (DONE, NOTHING):
            raise Refused(answer)
        return answer == DONE

    def take_out(self, machine):
        """Takes the machine's first message out; None where there is none. Refused: NO_SUCH_MACHINE."""
        it = _Message()
        answer = self._with_room("take_out", ((machine, it), ()), lambda: it.length)
        if answer not in (DONE, NOTHING):
            raise Refused(answer)
        return Message(it.target, it.number, Content(it.code, self._handed_out(it.length))) if answer == DONE else None

    # Described machines.

    def describe(self, text):
        """Reads a description, as docs/MACHINES.md has it, and answers its number. Refused: FAULTY, with what is at fault
        as the detail; NO_MEMORY."""
        text = text.encode() if isinstance(text, str) else text
        description, length = c_uint64(), c_uint64()
        while True:
            words = _pointer(text), len(text), description, self._room, len(self._room), length
            answer = self._call("describe", *words)
            if answer == DONE:
                return description.value
            if answer != FAULTY:
                raise Refused(answer)
            if length.value <= len(self._room):
                raise Refused(answer, self._handed_out(length.value).decode(errors="replace"))
            self._room = (c_uint8 * length.value)()

    def number_of(self, description, name, kind=SYMBOL):
        """The number of a name. Refused: NO_SUCH_DESCRIPTION, NO_SUCH_NAME, INVALID."""
        number, name = c_uint64(), name.encode()
        self._done("number_of", description, kind, _pointer(name), len(name), number)
        return number.value

    def name_of(self, description, number, kind=STATE):
        """The name of a number. Refused: NO_SUCH_DESCRIPTION, NO_SUCH_NAME, INVALID."""
        length = c_uint64()
        answer = self._with_room("name_of", ((description, kind, number), (length,)), lambda: length.value)
        if answer != DONE:
            raise Refused(answer)
        return self._handed_out(length.value).decode()

    @staticmethod
    def _flat_signals(signals):
        flat, content = (_Signal * max(len(signals), 1))(), b""
        for one, (symbol, value) in zip(flat, signals):
            one.symbol = symbol
            if isinstance(value, str):
                text = value.encode()
                one.what, one.length = TEXT, len(text)
                setattr(one, "from", len(content))
                content += text
            elif isinstance(value, Request):
                one.what, one.number, one.request = CALL_TAG, *value
            elif isinstance(value, Machine):
                one.what, one.number = MACHINE, value.id
            elif value is not None:
                one.what, one.number = NUMBER, value
        return flat, content

    def _signal(self, it):
        values = {
            NO_VALUE: lambda: None,
            NUMBER: lambda: it.number,
            CALL_TAG: lambda: Request(it.number, it.request),
            MACHINE: lambda: Machine(it.number),
            TEXT: lambda: self._handed_out(it.length).decode(),
        }
        return Signal(it.symbol, values[it.what]())

    def start_described(self, description, now, *arguments):
        """Starts a machine of a description, and answers its id. Its report is `report_of_start`.

        Refused: IGNORED; STOPPED, with the reason as the detail; NO_SUCH_DESCRIPTION, BAD_MOMENT, EXHAUSTED, FULL,
        NO_MEMORY."""
        flat, content = self._flat_signals([Signal(0, it) for it in arguments])
        machine, report = c_uint64(), _Report()
        words = description, now, flat, len(arguments), _pointer(content), len(content), machine, report
        answer = self._call("start_described", *words)
        if answer != DONE:
            raise Refused(answer, report.reason if answer == STOPPED else None)
        self.report_of_start = self._report(report)
        return machine.value

    def post_signal(self, machine, entry, signal):
        """Posts an event to a described machine, and answers its number. Refused: ENDED, EXHAUSTED, NO_SUCH_MACHINE,
        INVALID, NO_MEMORY."""
        flat, content = self._flat_signals([signal])
        number = c_uint64()
        self._done("post_signal", machine, entry, flat, _pointer(content), len(content), number)
        return number.value

    def run(self, machine, now, at_most=1_000_000):
        """Makes turns of a described machine until there is no event, but at most so many. Answers how many, and whether
        there are more events. Refused: ENDED, NO_SUCH_MACHINE, BAD_MOMENT, EXHAUSTED, NO_MEMORY; the detail is how many
        turns were made before, and these stay made."""
        turns, more = c_uint64(), c_uint32()
        answer = self._call("run", machine, now, at_most, turns, more)
        if answer != DONE:
            raise Refused(answer, turns.value)
        return turns.value, bool(more.value)

    def collect_signal(self, request):
        """Takes the reply to a described machine's call out, once, as collect does: a Signal."""
        it, why = _Signal(), c_uint32()
        answer = self._with_room("collect_signal", ((*request, it, why), ()), lambda: it.length)
        return self._collected(answer, lambda: self._signal(it), Stopped(why.value))

    def take_out_signal(self, machine):
        """Takes a described machine's first message out, as take_out does: its content is a Signal."""
        it, target, number = _Signal(), c_uint64(), c_uint64()
        answer = self._with_room("take_out_signal", ((machine, it, target, number), ()), lambda: it.length)
        if answer not in (DONE, NOTHING):
            raise Refused(answer)
        return Message(target.value, number.value, self._signal(it)) if answer == DONE else None
