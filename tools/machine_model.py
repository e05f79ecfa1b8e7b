"""Machines in files, a second time: what docs/MACHINES.md says, read and run in Python, to compare the program `machine` with.

The engine here is the plain one: one list of what waits, rescanned at each turn. `transcript(files, main, lines)` returns
what `machine run` is to print.
"""
import json

TOP, TOP32, LIMIT = (1 << 64) - 1, (1 << 32) - 1, 1 << 63
OPERATORS = {"+": 1, "-": 1, "*": 2, "/": 2, "%": 2, "min": 0, "max": 0}
RELATIONS = ("==", "!=", "<=", ">=", "<", ">")


# ---- values: None, a number, a text, ("call", id, request), ("machine", id)

def number_of(value):
    return value if isinstance(value, int) else 0


def computed(operator, left, right):
    if operator in "/%":
        return 0 if right == 0 else left // right if operator == "/" else left % right
    return {"+": min(left + right, TOP), "-": max(left - right, 0), "*": min(left * right, TOP),
            "min": min(left, right), "max": max(left, right)}[operator]


# ---- descriptions

def tokens_of(text):
    found, at = [], 0
    while at < len(text):
        here = text[at]
        if here in " \t\r\n":
            at += 1
            continue
        if here == "'":
            end = text.index("'", at + 1) + 1
        elif text[at:at + 2] in RELATIONS:
            end = at + 2
        elif here in "+-*/%()<>":
            end = at + 1
        else:
            end = at
            while end < len(text) and (text[end].isalnum() or text[end] in "_."):
                end += 1
            if end == at:
                raise ValueError(f"{here} in {text}")
        found.append(text[at:end])
        at = end
    return found


class Chart:
    """A description: rules with names in the place of numbers."""

    def __init__(self, text):
        told = json.loads(text)
        self.first = dict(told.get("context", {}))
        self.arguments = told.get("args", [])
        self.states = {name: None for name in told["states"]}
        self.symbols = []
        if "start" in told:
            self.start = [self.rule(it, "start") for it in listed(told["start"])]
        else:
            updates = [(name, (("before", self.arguments.index(name)), [])) for name in self.first if name in self.arguments]
            self.start = [{"guard": [], "updates": updates, "target": ("next", told["initial"]), "asks": []}]
        self.enters = False
        for name, row in told["states"].items():
            self.states[name] = self.row(row or {})
        self.any = self.ranked(told.get("on", {}))
        self.last = self.expression(told.get("last", 0), "last")

    def row(self, row):
        entries = [self.rule(it, "entry") for it in listed(row["entry"])] if "entry" in row else []
        on = dict(row.get("on", {}))
        if "after" in row:
            (time, rules), = row["after"].items()
            self.symbol("timeout")
            ask = ("set", "state", self.expression(time, "entry"), ("timeout", ((None,), [])))
            for entry in entries:
                entry["asks"].append(ask)
            if not entries or entries[-1]["guard"]:
                entries.append({"guard": [], "updates": [], "target": ("keep",), "asks": [ask]})
            on["timeout state"] = rules
        self.enters = self.enters or bool(entries)
        return {"entries": entries, "rules": self.ranked(on)}

    def ranked(self, on):
        found = []
        for key, rules in on.items():
            kind, name = (key.split() + ["*"])[:2]
            rank = (kind == "*") * 2 + (name == "*")
            for rule in listed(rules):
                found.append((rank, kind, name, rule))
        found.sort(key=lambda it: it[0])
        made = []
        for _, kind, name, rule in found:
            if kind != "timeout" and name != "*":
                self.symbol(name)
            made.append({"kind": kind, "name": name, **self.rule(rule, kind)})
        return made

    def symbol(self, name):
        if name not in self.symbols:
            self.symbols.append(name)
        return name

    def rule(self, rule, where):
        if isinstance(rule, str):
            rule = {"target": rule}
        before = where != "start"
        target = ("keep",)
        if "target" in rule:
            target = ("next", rule["target"])
        elif rule.get("reenter"):
            target = ("repeat",)
        elif "stop" in rule:
            target = ("stop", self.expression(rule["stop"], where))
        return {
            "guard": self.guard(rule["guard"], where) if "guard" in rule else [],
            "updates": [(name, self.expression(value, where, before)) for name, value in rule.get("assign", {}).items()],
            "target": target,
            "asks": [self.ask(it, where) for it in listed(rule.get("actions", []))],
        }

    def ask(self, ask, where):
        if isinstance(ask, str):
            return (ask,)
        if "reply" in ask:
            return ("reply", self.operand(ask.get("to", "caller"), where), self.say(ask["reply"], ask, where))
        if "send" in ask:
            return ("send", self.operand(ask["to"], where), self.say(ask["send"], ask, where))
        if "raise" in ask:
            return ("raise", ask.get("as", "internal"), self.say(ask["raise"], ask, where))
        if "set" in ask:
            return ("set", ask["set"], self.expression(ask["after"], where), self.say(ask.get("say", "timeout"), ask, where))
        if "update" in ask:
            return ("update", ask["update"], self.say(ask.get("say", "timeout"), ask, where))
        if "cancel" in ask:
            return ("cancel", ask["cancel"])
        return (next(iter(ask)),)

    def say(self, symbol, ask, where):
        return (self.symbol(symbol), self.expression(ask.get("with", "none"), where))

    def operand(self, word, where, before=False):
        if word[0].isdigit():
            return (int(word),)
        if word[0] == "'":
            return (word[1:-1],)
        if word == "none":
            return (None,)
        if word in ("event", "from", "reason"):
            return ("argument",)
        if word in ("caller", "self.id"):
            return (word,)
        if word.startswith("state."):
            return (list(self.states).index(word[6:]),)
        if word.startswith("arg."):
            return ("before", self.arguments.index(word[4:]))
        if word.startswith("was."):
            return ("before", list(self.first).index(word[4:]))
        return ("before" if before else "register", list(self.first).index(word))

    def expression(self, text, where, before=False):
        words = [it for it in tokens_of(str(text)) if it not in "()"]
        terms = [(words[at], self.operand(words[at + 1], where, before)) for at in range(1, len(words), 2)]
        return (self.operand(words[0], where, before), terms)

    def guard(self, text, where):
        tests, words = [], tokens_of(text) + ["and"]
        while words:
            end = words.index("and")
            part, words = words[:end], words[end + 1:]
            at = next(n for n, it in enumerate(part) if it in RELATIONS)
            left, right = (self.expression(" ".join(it), where) for it in (part[:at], part[at + 1:]))
            tests.append((left, part[at], right))
        return tests


def listed(value):
    return value if isinstance(value, list) else [value]


# ---- what a rule gives

class Heard:
    def __init__(self, tag, argument):
        self.tag, self.argument = tag, argument


def operand_of(operand, heard, before, registers):
    if len(operand) == 1:
        word = operand[0]
        if word == "argument":
            return heard.argument
        if word == "caller":
            return heard.tag
        if word == "self.id":
            return ("machine", heard.tag[1]) if heard.tag else None
        return word
    place = before if operand[0] == "before" else registers
    return place[operand[1]] if operand[1] < len(place) else None


def value_of(expression, heard, before, registers):
    first, terms = expression
    value = operand_of(first, heard, before, registers)
    for operator, operand in terms:
        value = computed(operator, number_of(value), number_of(operand_of(operand, heard, before, registers)))
    return value


def holds(test, heard, before, registers):
    left, right = (value_of(it, heard, before, registers) for it in (test[0], test[2]))
    if test[1] in ("==", "!="):
        return (left == right and type(left) is type(right)) == (test[1] == "==")
    left, right = number_of(left), number_of(right)
    return {"<": left < right, "<=": left <= right, ">": left > right, ">=": left >= right}[test[1]]


class Interpreter:
    def __init__(self, chart):
        self.chart = chart
        self.registers = list(chart.first)

    def taken(self, rules, heard, before, registers, fits=lambda rule: True):
        return next((it for it in rules if fits(it) and all(holds(test, heard, before, registers) for test in it["guard"])), None)

    def updated(self, rule, heard, before, registers):
        registers = list(registers)
        for name, expression in rule["updates"]:
            registers[self.registers.index(name)] = value_of(expression, heard, before, registers)
        return registers

    def said(self, say, heard, before, registers):
        return (say[0], value_of(say[1], heard, before, registers))

    def actions(self, rule, heard, before, registers):
        found = []
        for ask in rule["asks"]:
            what = ask[0]
            if what in ("reply", "send"):
                to = operand_of(ask[1], heard, before, registers)
                wanted = "call" if what == "reply" else "machine"
                if isinstance(to, tuple) and to[0] == wanted:
                    found.append((what, to, self.said(ask[2], heard, before, registers)))
            elif what == "raise":
                found.append((what, ask[1], self.said(ask[2], heard, before, registers)))
            elif what == "set":
                time = value_of(ask[2], heard, before, registers)
                time = min(time, TOP32) if isinstance(time, int) else None
                found.append((what, ask[1], time, self.said(ask[3], heard, before, registers)))
            elif what == "update":
                found.append((what, ask[1], self.said(ask[2], heard, before, registers)))
            else:
                found.append(ask)
        return found

    def outcome(self, rule, heard, registers):
        """What a rule leads to: its target, the registers after it, and what it asks for."""
        after = self.updated(rule, heard, registers, registers)
        target = rule["target"]
        if target[0] == "stop":
            target = ("stop", min(number_of(value_of(target[1], heard, registers, after)), TOP32))
        return target, after, self.actions(rule, heard, registers, after)

    def handle(self, kind, content, state, registers):
        heard = Heard(kind[1] if kind[0] == "call" else None, content[1])

        def fits(rule):
            if rule["kind"] == "timeout":
                return kind[0] == "timeout" and rule["name"] in ("*", kind[1])
            return rule["kind"] in ("*", kind[0]) and rule["name"] in ("*", content[0])

        rule = self.taken(self.chart.states[state]["rules"] + self.chart.any, heard, registers, registers, fits)
        return self.outcome(rule, heard, registers) if rule else (("keep",), registers, [])

    def enter(self, old, state, registers):
        heard = Heard(None, list(self.chart.states).index(old))
        rule = self.taken(self.chart.states[state]["entries"], heard, registers, registers)
        if not rule:
            return ("keep",), registers, []
        target, after, actions = self.outcome(rule, heard, registers)
        return target, after, [it for it in actions if it[0] not in ("postpone", "raise", "send")]

    def init(self, given):
        heard, first = Heard(None, None), list(self.chart.first.values())
        rule = self.taken(self.chart.start, heard, given, first)
        if not rule:
            return ("keep",), first, []
        after = self.updated(rule, heard, given, first)
        target = rule["target"]
        if target[0] == "stop":
            target = ("stop", min(number_of(value_of(target[1], heard, given, after)), TOP32))
        return target, after, self.actions(rule, heard, given, after)

    def last_word(self, reason, registers):
        return min(number_of(value_of(self.chart.last, Heard(None, reason), registers, registers)), TOP32)


# ---- one machine

class Machine:
    """What waits is one list, `pending`, with the numbers of postponed events in `off`."""

    def __init__(self, module, id, now):
        self.module, self.id, self.latest, self.next = module, id, now, 1
        self.pending, self.off, self.running = [], set(), []
        self.open, self.kept, self.outbox, self.sent, self.ended = [], {}, [], 0, None

    def number(self):
        self.next += 1
        return self.next - 1

    def start(self, given):
        target, self.data, actions = self.module.init(given)
        if target[0] != "next":
            return target
        self.state = target[1]
        report = {"before": self.state, "event": None, "postponed": False, "entered": None, "ended": None}
        self.replies(actions)
        if self.module.chart.enters:
            actions, stopped = self.entering(self.state, actions, report)
            if stopped:
                return report
        self.finish(actions, report)
        return report

    def entering(self, old, actions, report):
        report["entered"] = self.state
        target, self.data, more = self.module.enter(old, self.state, self.data)
        self.replies(more)
        if target[0] == "stop":
            self.end(target[1], report)
            return actions, True
        return actions + more, False

    def replies(self, actions):
        for action in actions:
            if action[0] == "reply":
                self.reply(action[1], action[2])

    def reply(self, tag, content):
        if tag[1] == self.id and tag[2] in self.open:
            self.open.remove(tag[2])
            self.kept[tag[2]] = content

    def end(self, reason, report=None):
        self.ended = (reason, self.module.last_word(reason, self.data))
        for request in self.open:
            self.kept[request] = reason
        self.open, self.pending, self.off, self.running = [], [], set(), []
        if report is not None:
            report["ended"], report["after"], report["set"] = self.ended, self.state, []

    def finish(self, actions, report):
        """Inserts, timers and messages of a list of actions."""
        inserts = [(self.number(), (it[1],), it[2]) for it in actions if it[0] == "raise"]
        at = next((n for n, it in enumerate(self.pending) if it.get("number") not in self.off), len(self.pending))
        self.pending[at:at] = [{"number": n, "kind": kind, "content": content, "received": True} for n, kind, content in inserts]
        asked = {}
        for action in actions:
            if action[0] in ("set", "cancel", "update"):
                asked.pop(action[1], None)
                asked[action[1]] = action
        report["set"] = list(asked.values())
        for timer, action in asked.items():
            self.request(timer, action)
        for action in actions:
            if action[0] == "send":
                self.sent += 1
                self.outbox.append((self.sent, action[1][1], action[2]))
        report["after"] = self.state

    def request(self, timer, action):
        runs = next((it for it in self.running if it["timer"] == timer), None)
        if action[0] == "update" and runs:
            runs["content"] = action[2]
            return
        self.without(timer)
        if action[0] == "cancel" or action[0] == "set" and action[2] is None:
            return
        time, content = (0, action[2]) if action[0] == "update" else (action[2], action[3])
        self.running.append({"timer": timer, "number": self.number(), "due": None if time == 0 else self.latest + time, "content": content})

    def without(self, timer):
        self.running = [it for it in self.running if it["timer"] != timer]
        self.pending = [it for it in self.pending if it.get("expiry") != timer]

    def choice(self):
        for item in self.pending:
            if item.get("received") and item["number"] not in self.off:
                return item
        for entry in self.running:
            if entry["due"] is None:
                return entry
        return next((it for it in self.pending if not it.get("received")), None)

    def post(self, kind, content):
        number = self.number()
        if kind == "call":
            self.open.append(number)
        self.pending.append({"number": number, "kind": (kind, ("call", self.id, number)) if kind == "call" else (kind,), "content": content, "received": False})
        return number

    def next_due(self):
        appended = [it["expiry"] for it in self.pending if "expiry" in it]
        return min((it["due"] for it in self.running if it["due"] is not None and it["timer"] not in appended), default=None)

    def tick(self, now):
        self.latest = max(self.latest, now)
        appended = [it["expiry"] for it in self.pending if "expiry" in it]
        due = [it for it in self.running if it["due"] is not None and it["due"] <= self.latest and it["timer"] not in appended]
        for entry in sorted(due, key=lambda it: (it["due"], it["number"])):
            self.pending.append({"expiry": entry["timer"]})

    def turn(self, now):
        self.latest = max(self.latest, now)
        item = self.choice()
        if "timer" in item:
            entry, timer = item, item["timer"]
            received = [n for n, it in enumerate(self.pending) if it.get("received")]
            place = received[-1] + 1 if received else 0
            self.pending.insert(place, None)
        elif "expiry" in item:
            timer, place = item["expiry"], self.pending.index(item)
            entry = next(it for it in self.running if it["timer"] == timer)
        else:
            entry = None
        if entry:
            self.running.remove(entry)
            item = {"number": entry["number"], "kind": ("timeout", timer), "content": entry["content"]}
            self.pending[place] = item
        item["received"] = True
        self.without("event")
        report = {"before": self.state, "event": item, "postponed": False, "entered": None, "ended": None}
        target, self.data, actions = self.module.handle(item["kind"], item["content"], self.state, self.data)
        self.replies(actions)
        if target[0] == "stop":
            self.end(target[1], report)
            return report
        old = self.state
        changes = target[0] == "next" and target[1] != old
        if changes:
            self.state = target[1]
        if self.module.chart.enters and (changes or target[0] == "repeat"):
            postponed = [it for it in actions if it[0] == "postpone"]
            actions, stopped = self.entering(old, actions, report)
            if stopped:
                return report
            actions = [it for it in actions if it[0] != "postpone"] + postponed
        if any(it[0] == "postpone" for it in actions):
            report["postponed"] = True
            self.off.add(item["number"])
        else:
            self.pending.remove(item)
            self.off.discard(item["number"])
        if changes:
            self.off = set()
            self.without("state")
        self.finish(actions, report)
        return report

    def is_ready(self):
        return bool(self.outbox) or self.ended is None and self.choice() is not None


# ---- what `machine run` prints

def shown(value, machine, session):
    if isinstance(value, str):
        return f"'{value}'"
    if isinstance(value, tuple) and value[0] == "call":
        own = value[1] == machine.id
        return f"call#{value[2]}" if own else f"call#{value[2]} of {session.name_of(value[1])}"
    if isinstance(value, tuple):
        return session.name_of(value[1])
    return "none" if value is None else str(value)


class Session:
    def __init__(self, files, main):
        self.charts = {name: Chart(text) for name, text in files.items()}
        self.main, self.now, self.printed, self.touched = main, 0, [], []
        self.names, self.machines, self.last = [], [], None

    def name_of(self, id):
        return self.names[id]

    def id_of(self, name):
        if name not in self.names:
            self.names.append(name)
            self.machines.append(None)
        return self.names.index(name)

    def say(self, text):
        self.printed.append(text)

    def content(self, content, machine):
        return content[0] + ("" if content[1] is None else f"({shown(content[1], machine, self)})")

    def suffixes(self, report):
        found = ""
        if report["postponed"]:
            found += ", postponed"
        if report["entered"] is not None:
            found += f", entered {report['entered']}"
        for action in report["set"]:
            found += f", {action[0]} {action[1]}"
            if action[0] == "set":
                found += " never" if action[2] is None else f" {action[2]}"
        if report["ended"]:
            found += f", stopped {report['ended'][0]} word {report['ended'][1]}"
        return found

    def event(self, event, machine):
        kind, content = event["kind"], self.content(event["content"], machine)
        if kind[0] != "timeout":
            return f"{kind[0]} {content}"
        return f"timeout {kind[1]}" + ("" if content == "timeout" else f" {content}")

    def collect(self, machine):
        name = self.name_of(machine.id)
        for request in sorted(machine.kept):
            kept = machine.kept[request]
            if isinstance(kept, tuple):
                self.say(f"  {name} replies {self.content(kept, machine)} to call #{request}")
        for request in sorted(machine.kept):
            kept = machine.kept[request]
            if not isinstance(kept, tuple):
                self.say(f"  call #{request} of {name}: stopped {kept}")
        machine.kept = {}

    def settle(self):
        while True:
            machine = next((it for it in self.machines if it and it.is_ready()), None)
            if not machine:
                return
            name = self.name_of(machine.id)
            if machine.outbox:
                _, target, content = machine.outbox.pop(0)
                other = self.machines[target]
                text = f"  {name} sends {self.content(content, machine)} to {self.name_of(target)}"
                if other is None or other.ended:
                    self.say(text + ", lost")
                else:
                    self.say(text)
                    other.post("info", content)
                continue
            report = machine.turn(self.now)
            self.touched.append(machine)
            self.say(f"  {name} at {self.now}: {self.event(report['event'], machine)}: {report['before']} -> {report['after']}{self.suffixes(report)}")
            self.collect(machine)

    def statuses(self):
        for machine in self.machines:
            if machine in self.touched and machine:
                self.say(self.status(machine))
        self.touched = []

    def status(self, machine):
        name = self.name_of(machine.id)
        if machine.ended:
            return f"{name} stopped {machine.ended[0]} word {machine.ended[1]}"
        waiting = sum(1 for it in machine.pending if "number" in it)
        held = "".join(f" {register}={shown(value, machine, self)}" for register, value in zip(machine.module.registers, machine.data))
        return f"{name} {machine.state}{held} waiting {waiting}"

    def value(self, word):
        if word == "none":
            return None
        if word[0].isdigit():
            return int(word)
        return word[1:-1] if word[0] == "'" else ("machine", self.id_of(word))

    def new(self, words):
        name, words = words[0], words[1:]
        chart = self.charts[self.main]
        if words and ("." in words[0] or "/" in words[0]):
            chart, words = self.charts[words[0]], words[1:]
        id = self.id_of(name)
        machine = Machine(Interpreter(chart), id, self.now)
        report = machine.start([self.value(it) for it in words])
        if isinstance(report, tuple):
            self.say(f"  {name} stopped {report[1]}" if report[0] == "stop" else f"  {name} is ignored")
            return
        self.machines[id] = self.last = machine
        self.touched.append(machine)
        self.say(f"  {name} starts in {report['before']}{self.suffixes(report)}")
        self.collect(machine)

    def at(self, moment):
        self.now = now = max(self.now, moment)
        while True:
            due = min((it.next_due() for it in self.machines if it and it.next_due() is not None), default=None)
            if due is None or due > now:
                break
            self.now = due
            for machine in self.machines:
                if machine and machine.next_due() == due:
                    machine.tick(due)
            self.settle()
        self.now = now

    def line(self, line):
        words = line.split(" #")[0].split()
        if not words or words[0].startswith("#"):
            return
        self.say("> " + line.strip())
        machine = self.last
        if words[0].endswith(":"):
            machine, words = self.machines[self.names.index(words[0][:-1])], words[1:]
        if words[0] == "new":
            self.new(words[1:])
        elif words[0] == "at":
            self.at(int(words[1]))
        elif words[0] == "stop":
            machine.end(int(words[1]))
            self.touched.append(machine)
            self.collect(machine)
        else:
            machine.post(words[0], (words[1], self.value(words[2]) if len(words) > 2 else None))
            self.touched.append(machine)
        self.settle()
        self.statuses()


def transcript(files, main, lines):
    session = Session(files, main)
    for line in lines:
        session.line(line)
    return session.printed
