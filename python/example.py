#!/usr/bin/env python3
"""A connection that is lent to one client at a time, for a minute at most. A client that calls meanwhile waits."""
from enum import IntEnum

import zumelivon
from zumelivon import Timer, keep, next_state, postpone, reply, set_timer

State = IntEnum("State", "FREE LENT")
Code = IntEnum("Code", "BORROW RETURN OVER YOURS")
A_MINUTE = Timer(zumelivon.STATE_TIMER)


class Connection:
    def handle(self, machine, event):
        match event.kind, event.code, event.state:
            case zumelivon.CALL, Code.BORROW, State.FREE:
                print(f"lent to call {event.request.number}")
                lends = reply(event.request, Code.YOURS), set_timer(A_MINUTE, 60_000, Code.OVER)
                return next_state(State.LENT, event.request.number, *lends)
            case zumelivon.CALL, Code.BORROW, State.LENT:
                return keep(postpone())
            case (zumelivon.CAST, Code.RETURN, State.LENT) | (zumelivon.TIMEOUT, Code.OVER, State.LENT):
                print(f"taken back from call {event.data}")
                return next_state(State.FREE, 0)
        return keep()


def main():
    with zumelivon.Table() as table:
        module, machine = Connection(), table.start(0, State.FREE)
        requests = [table.call(machine, Code.BORROW) for _ in range(3)]
        table.turn_until_idle(machine, 0, module)
        table.cast(machine, Code.RETURN)
        table.turn_until_idle(machine, 10, module)
        while (due := table.look(machine).due) is not None:
            table.tick(machine, due)
            table.turn_until_idle(machine, due, module)
        for request in requests:
            print(request.number, table.collect(request))


if __name__ == "__main__":
    main()
