#!/usr/bin/env python3
"""Tries all interleavings of threads that ring the bells of `crates/pool` and of threads that wait.

Run it by `make bell`. The host rings for jobs, on which workers wait, and workers ring for turns,
on which the host waits. At the end the host shuts the board and wakes all workers. A ring is lost
where something waits to be taken, everybody who could ring has ended, and everybody who could take
it sleeps. After the end it is lost where a worker sleeps. The bells as they are must have no such
state. Bells with one step changed are tried as well, and each of them must have one, since a search
that finds nothing anywhere shows nothing.

The steps are the atomic ones of the source: a load, a store, a sum, a look at the board, or a call
of the kernel. A thread may give up looking at any time, and a sleep may end without a ring as often
as the case allows. Of the number of rings a state has only whether each thread has missed one,
since nothing else is asked of it.
"""

import collections
import enum
import sys
from collections.abc import Callable, Iterable, Iterator
from typing import NamedTuple


class Bell(enum.Enum):
    """Which bell is tried: one of those of the source, or one with a step changed."""

    JOBS = "jobs, rung by the host"
    END = "jobs and the end, rung by the host"
    TURNS = "turns, rung by workers"
    READS_FIRST = "turns, where the sleepers are read before the ring"
    HEARS_LATE = "turns, where the rings are read after the look"
    SLEEPS_ANYWAY = "turns, where a thread that looked sleeps whatever has rung"
    NEVER_WAKES = "jobs, where nobody is woken"
    READS_MARKS_FIRST = "jobs, where the marks are read before the ring"
    MARKS_LATE = "jobs, where a worker marks itself after it has compared the rings"
    READS_WORD_LATE = "jobs, where a worker reads its word after it has marked itself"
    NEVER_CALLS = "jobs, where the word of a worker that is woken stays as it was"
    ENDS_UNHEARD = "the end, where the marks are taken before the ring"


OF_TURNS = {Bell.TURNS, Bell.READS_FIRST, Bell.HEARS_LATE, Bell.SLEEPS_ANYWAY}

WITH_END = {Bell.END, Bell.ENDS_UNHEARD}


class At(enum.IntEnum):
    """What a thread that waits does next."""

    HEAR = 0  # reads the rings
    SEE_END = 1  # ends, if the board is shut
    TAKE = 2  # takes what is there, if anything is
    WORK = 3  # makes what it took, and answers
    BEGIN_LOOKING = 4  # adds itself to those who look
    LOOK = 5  # looks whether the bell has rung
    END_LOOKING = 6  # takes itself from those who look
    ANNOUNCE = 7  # adds itself to those who sleep
    READ_WORD = 8  # reads the word on which it sleeps
    MARK = 9  # marks itself as asleep
    COMPARE = 10  # goes on to sleep, if the rings are those that it heard
    PARK = 11  # sleeps, if the rings are those that it heard, or its word is the one that it read
    ASLEEP = 12
    LEAVE = 13  # takes itself from those who sleep, or its mark away
    ENDED = 14


# Where it matters to a thread whether the bell rings.
HEARING = range(At.SEE_END, At.ASLEEP)


class Ring(enum.IntEnum):
    """What a thread that rings does next."""

    PUT = 0  # puts something there, or has ended, or shuts the board
    RING = 1  # adds a ring
    READ_LOOKERS = 2
    READ_SLEEPERS = 3
    WAKE = 4  # wakes one sleeper
    READ_MARKS = 5  # chooses a worker that is marked, if more jobs are out than workers are awake
    TAKE_MARK = 6  # takes the mark of the chosen worker
    CALL = 7  # changes the word of the chosen worker
    WAKE_CHOSEN = 8
    RING_END = 9  # adds a ring
    TAKE_MARKS = 10  # takes all marks
    CALL_NEXT = 11  # chooses a worker whose mark it took, and changes its word
    WAKE_NEXT = 12  # wakes that worker
    ENDED = 13


class Waiter(NamedTuple):
    """A thread that waits.

    It has missed a ring if one came after it read the rings, and it is called if its word changed
    after it read the word. The host wakes it next if it is chosen, and later if it is due.
    """

    at: At
    has_missed: bool = False
    has_rung: bool = False
    is_marked: bool = False
    is_called: bool = False
    is_chosen: bool = False
    is_due: bool = False


class Ringer(NamedTuple):
    """A thread that rings, how much it has to put, and whether it has chosen to wake a sleeper."""

    at: Ring
    left: int
    wakes: bool = False


class State(NamedTuple):
    """Everything that is shared, and where each thread is.

    `out` is what the host has put and not collected.
    """

    waiters: tuple[Waiter, ...]
    ringers: tuple[Ringer, ...]
    lookers: int
    sleepers: int
    there: int
    out: int
    answered: int
    early: int
    is_shut: bool


class Case(NamedTuple):
    """A bell, how many wait by it, how much each ringer puts, and how often a sleep ends early."""

    bell: Bell
    waiters: int
    puts: tuple[int, ...]
    early: int


class Result(NamedTuple):
    states: int
    lost: int


def again(case: Case, waiter: Waiter) -> Waiter:
    """The thread at the beginning of its loop, where only what the host does with it counts."""
    at = At.TAKE if case.bell is Bell.HEARS_LATE else At.HEAR
    return waiter._replace(at=at, has_missed=False, has_rung=False, is_called=False)


def first_state(case: Case) -> State:
    """Nothing was put yet."""
    waiters = tuple(again(case, Waiter(At.HEAR)) for _ in range(case.waiters))
    ringers = tuple(Ringer(Ring.PUT, left) for left in case.puts)
    return State(waiters, ringers, 0, 0, 0, 0, 0, case.early, False)


def with_waiters(state: State, waiters: Iterable[Waiter]) -> State:
    """The same, with these threads that wait. They are alike, so they have no order."""
    return state._replace(waiters=tuple(sorted(waiters)))


def with_waiter(state: State, index: int, waiter: Waiter) -> State:
    """The same, with this thread elsewhere."""
    return with_waiters(state, (*state.waiters[:index], waiter, *state.waiters[index + 1 :]))


def with_ringer(state: State, index: int, ringer: Ringer) -> State:
    """The same, with this thread elsewhere. Threads that ring are alike as well."""
    others = state.ringers[:index] + state.ringers[index + 1 :]
    return state._replace(ringers=tuple(sorted((*others, ringer))))


def indices(state: State, test: Callable[[Waiter], bool]) -> list[int]:
    """Which of the threads that wait pass the test."""
    return [at for at, waiter in enumerate(state.waiters) if test(waiter)]


def rung(state: State) -> State:
    """The bell rings, which all threads miss that have read the rings."""
    heard = (
        waiter._replace(has_missed=True) if waiter.at in HEARING else waiter
        for waiter in state.waiters
    )
    return with_waiters(state, heard)


def to_sleep(bell: Bell) -> tuple[At, ...]:
    """What a worker does, one after the other, that has looked in vain."""
    if bell is Bell.MARKS_LATE:
        return (At.LOOK, At.READ_WORD, At.COMPARE, At.MARK, At.PARK)
    if bell is Bell.READS_WORD_LATE:
        return (At.LOOK, At.MARK, At.READ_WORD, At.COMPARE, At.PARK)
    return (At.LOOK, At.READ_WORD, At.MARK, At.COMPARE, At.PARK)


def steps_of_worker(case: Case, state: State, index: int) -> Iterator[State]:
    """What a worker may do that has found no job.

    It looks for a while, and then sleeps on its word. The host does not ask who looks.
    """
    waiter = state.waiters[index]
    if waiter.at is At.LEAVE or (waiter.at is At.LOOK and waiter.has_missed):
        yield with_waiter(state, index, again(case, waiter._replace(is_marked=False)))
    elif waiter.at is At.COMPARE and waiter.has_missed:
        yield with_waiter(state, index, waiter._replace(at=At.LEAVE, has_missed=False))
    elif waiter.at is At.PARK:
        at = At.LEAVE if waiter.is_called else At.ASLEEP
        yield with_waiter(state, index, waiter._replace(at=at, has_missed=False, is_called=False))
    elif waiter.at in to_sleep(case.bell):
        order = to_sleep(case.bell)
        then = waiter._replace(at=order[order.index(waiter.at) + 1])
        if waiter.at is At.MARK:
            then = then._replace(is_marked=True)
        elif waiter.at is At.READ_WORD:
            then = then._replace(is_called=False)
        yield with_waiter(state, index, then)


def steps_to_turn(case: Case, state: State, index: int) -> Iterator[State]:
    """What the host may do that has found no turn.

    It looks for a while, and then sleeps while the rings are those that it heard.
    """
    waiter = state.waiters[index]
    sleeps_anyway = case.bell is Bell.SLEEPS_ANYWAY
    if waiter.at is At.BEGIN_LOOKING:
        looking = state._replace(lookers=state.lookers + 1)
        yield with_waiter(looking, index, waiter._replace(at=At.LOOK))
    elif waiter.at is At.LOOK:
        then = waiter._replace(at=At.END_LOOKING, has_rung=waiter.has_missed)
        yield with_waiter(state, index, then)
    elif waiter.at is At.END_LOOKING:
        ended = state._replace(lookers=state.lookers - 1)
        goes_on = waiter.has_rung and not sleeps_anyway
        sleeps = waiter._replace(at=At.ANNOUNCE, has_rung=False)
        yield with_waiter(ended, index, again(case, waiter) if goes_on else sleeps)
    elif waiter.at is At.ANNOUNCE:
        announced = state._replace(sleepers=state.sleepers + 1)
        yield with_waiter(announced, index, waiter._replace(at=At.PARK))
    elif waiter.at is At.PARK:
        at = At.LEAVE if waiter.has_missed and not sleeps_anyway else At.ASLEEP
        yield with_waiter(state, index, waiter._replace(at=at, has_missed=False))
    elif waiter.at is At.LEAVE:
        left = state._replace(sleepers=state.sleepers - 1)
        yield with_waiter(left, index, again(case, waiter))


def after_hearing(bell: Bell) -> At:
    """What a thread does that has read the rings."""
    if bell is Bell.HEARS_LATE:
        return At.BEGIN_LOOKING
    return At.SEE_END if bell in WITH_END else At.TAKE


def after_vain_look(bell: Bell) -> At:
    """What a thread does that has found nothing to take."""
    if bell is Bell.HEARS_LATE:
        return At.HEAR
    return At.BEGIN_LOOKING if bell in OF_TURNS else to_sleep(bell)[0]


def steps_of_waiter(case: Case, state: State, index: int) -> Iterator[State]:
    """What a thread that waits may do."""
    waiter = state.waiters[index]
    if waiter.at is At.HEAR:
        then = waiter._replace(at=after_hearing(case.bell), has_missed=False)
        yield with_waiter(state, index, then)
    elif waiter.at is At.SEE_END:
        at = At.ENDED if state.is_shut else At.TAKE
        yield with_waiter(state, index, waiter._replace(at=at))
    elif waiter.at is At.TAKE and state.there > 0:
        taken = state._replace(there=state.there - 1)
        yield with_waiter(taken, index, waiter._replace(at=At.WORK, has_missed=False))
    elif waiter.at is At.TAKE:
        yield with_waiter(state, index, waiter._replace(at=after_vain_look(case.bell)))
    elif waiter.at is At.WORK:
        answers = 0 if case.bell in OF_TURNS else 1
        made = state._replace(answered=state.answered + answers)
        yield with_waiter(made, index, again(case, waiter))
    elif waiter.at is At.ASLEEP and state.early > 0:
        early = state._replace(early=state.early - 1)
        yield with_waiter(early, index, waiter._replace(at=At.LEAVE))
    elif case.bell in OF_TURNS:
        yield from steps_to_turn(case, state, index)
    else:
        yield from steps_of_worker(case, state, index)


def after_ring(state: State, index: int) -> State:
    """The ring is over: the thread goes on to what it puts next."""
    return with_ringer(state, index, Ringer(Ring.PUT, state.ringers[index].left))


def states_woken(state: State, index: int) -> Iterator[State]:
    """One of the sleepers is woken. If there is none, nothing happens."""
    asleep = indices(state, lambda waiter: waiter.at is At.ASLEEP)
    for at in asleep:
        yield after_ring(with_waiter(state, at, Waiter(At.LEAVE)), index)
    if not asleep:
        yield after_ring(state, index)


def steps_of_ringer(case: Case, state: State, index: int) -> Iterator[State]:
    """What a worker may do that rings for a turn."""
    ringer = state.ringers[index]
    reads_first = case.bell is Bell.READS_FIRST
    if ringer.at is Ring.PUT and ringer.left > 0:
        put = state._replace(there=state.there + 1)
        then = Ring.READ_LOOKERS if reads_first else Ring.RING
        yield with_ringer(put, index, Ringer(then, ringer.left - 1))
    elif ringer.at is Ring.RING and not reads_first:
        yield with_ringer(rung(state), index, ringer._replace(at=Ring.READ_LOOKERS))
    elif ringer.at is Ring.RING and ringer.wakes:
        yield with_ringer(rung(state), index, ringer._replace(at=Ring.WAKE))
    elif ringer.at is Ring.RING:
        yield after_ring(rung(state), index)
    elif ringer.at is Ring.READ_LOOKERS and state.lookers == 0:
        yield with_ringer(state, index, ringer._replace(at=Ring.READ_SLEEPERS))
    elif ringer.at is Ring.READ_SLEEPERS and reads_first:
        yield with_ringer(state, index, ringer._replace(at=Ring.RING, wakes=state.sleepers > 0))
    elif ringer.at is Ring.READ_SLEEPERS and state.sleepers > 0:
        yield with_ringer(state, index, ringer._replace(at=Ring.WAKE))
    elif ringer.at is Ring.WAKE:
        yield from states_woken(state, index)
    elif ringer.at in (Ring.READ_LOOKERS, Ring.READ_SLEEPERS):
        over = with_ringer(state, index, ringer._replace(at=Ring.RING))
        yield over if reads_first else after_ring(state, index)


def called(waiter: Waiter) -> Waiter:
    """The worker after its word was changed, which it does not miss before it has read the word."""
    return waiter._replace(is_called=waiter.at in (At.MARK, At.COMPARE, At.PARK))


def woken(waiter: Waiter) -> Waiter:
    """The worker after the host woke it, which does nothing if it does not sleep."""
    at = At.LEAVE if waiter.at is At.ASLEEP else waiter.at
    return waiter._replace(at=at, is_chosen=False)


def states_chosen(case: Case, state: State) -> Iterator[State]:
    """The host reads the marks, and chooses a worker if more jobs are out than are awake."""
    marked = indices(state, lambda waiter: waiter.is_marked)
    if case.bell is Bell.NEVER_WAKES or state.out + len(marked) <= case.waiters:
        marked = []
    reads_first = case.bell is Bell.READS_MARKS_FIRST
    left = state.ringers[0].left
    for at in marked:
        chosen = with_waiter(state, at, state.waiters[at]._replace(is_chosen=True))
        then = Ringer(Ring.RING if reads_first else Ring.TAKE_MARK, left, reads_first)
        yield with_ringer(chosen, 0, then)
    if not marked:
        yield with_ringer(state, 0, Ringer(Ring.RING if reads_first else Ring.PUT, left))


def steps_to_wake(case: Case, state: State) -> Iterator[State]:
    """What the host may do that has chosen a worker."""
    ringer = state.ringers[0]
    at = indices(state, lambda waiter: waiter.is_chosen)[0]
    waiter = state.waiters[at]
    if ringer.at is Ring.TAKE_MARK and waiter.is_marked:
        taken = with_waiter(state, at, waiter._replace(is_marked=False))
        then = Ring.WAKE_CHOSEN if case.bell is Bell.NEVER_CALLS else Ring.CALL
        yield with_ringer(taken, 0, Ringer(then, ringer.left))
    elif ringer.at is Ring.TAKE_MARK:
        yield after_ring(with_waiter(state, at, waiter._replace(is_chosen=False)), 0)
    elif ringer.at is Ring.CALL:
        changed = with_waiter(state, at, called(waiter))
        yield with_ringer(changed, 0, Ringer(Ring.WAKE_CHOSEN, ringer.left))
    elif ringer.at is Ring.WAKE_CHOSEN:
        yield after_ring(with_waiter(state, at, woken(waiter)), 0)
    elif ringer.at is Ring.WAKE_NEXT:
        yield with_ringer(with_waiter(state, at, woken(waiter)), 0, Ringer(Ring.CALL_NEXT, 0))


def steps_to_end(case: Case, state: State) -> Iterator[State]:
    """What the host may do that has put everything: it shuts the board, and wakes all workers."""
    ringer = state.ringers[0]
    rings_last = case.bell is Bell.ENDS_UNHEARD
    if ringer.at is Ring.PUT:
        shut = state._replace(is_shut=True)
        yield with_ringer(shut, 0, Ringer(Ring.TAKE_MARKS if rings_last else Ring.RING_END, 0))
    elif ringer.at is Ring.RING_END:
        then = Ring.ENDED if rings_last else Ring.TAKE_MARKS
        yield with_ringer(rung(state), 0, Ringer(then, 0))
    elif ringer.at is Ring.TAKE_MARKS:
        taken = (w._replace(is_marked=False, is_due=w.is_marked) for w in state.waiters)
        yield with_ringer(with_waiters(state, taken), 0, Ringer(Ring.CALL_NEXT, 0))
    elif ringer.at is Ring.CALL_NEXT:
        due = indices(state, lambda waiter: waiter.is_due)
        for at in due:
            waiter = called(state.waiters[at])._replace(is_chosen=True, is_due=False)
            yield with_ringer(with_waiter(state, at, waiter), 0, Ringer(Ring.WAKE_NEXT, 0))
        if not due:
            yield with_ringer(state, 0, Ringer(Ring.RING_END if rings_last else Ring.ENDED, 0))


def steps_between_rings(state: State) -> Iterator[State]:
    """What the host may do between two rings: it collects a turn, or makes a job that it takes."""
    if state.answered > 0:
        yield state._replace(answered=state.answered - 1, out=state.out - 1)
    if state.there > 0:
        yield state._replace(answered=state.answered + 1, there=state.there - 1)


def steps_of_host(case: Case, state: State) -> Iterator[State]:
    """What the host may do that rings for jobs."""
    ringer = state.ringers[0]
    reads_first = case.bell is Bell.READS_MARKS_FIRST
    if ringer.at is Ring.PUT:
        yield from steps_between_rings(state)
    if ringer.at is Ring.PUT and ringer.left > 0:
        put = state._replace(there=state.there + 1, out=state.out + 1)
        then = Ring.READ_MARKS if reads_first else Ring.RING
        yield with_ringer(put, 0, Ringer(then, ringer.left - 1))
    elif ringer.at is Ring.RING and not reads_first:
        yield with_ringer(rung(state), 0, ringer._replace(at=Ring.READ_MARKS))
    elif ringer.at is Ring.RING:
        then = Ring.TAKE_MARK if ringer.wakes else Ring.PUT
        yield with_ringer(rung(state), 0, Ringer(then, ringer.left))
    elif ringer.at is Ring.READ_MARKS:
        yield from states_chosen(case, state)
    elif ringer.at in (Ring.TAKE_MARK, Ring.CALL, Ring.WAKE_CHOSEN, Ring.WAKE_NEXT):
        yield from steps_to_wake(case, state)
    elif case.bell in WITH_END:
        yield from steps_to_end(case, state)


def steps(case: Case, state: State) -> Iterator[State]:
    """All states that may come next."""
    if case.bell in OF_TURNS:
        for index in range(len(state.ringers)):
            yield from steps_of_ringer(case, state, index)
    else:
        yield from steps_of_host(case, state)
    for index in range(len(state.waiters)):
        yield from steps_of_waiter(case, state, index)


def is_lost(state: State) -> bool:
    """Whether something waits that nobody will take, or a worker sleeps after the end."""
    asleep = [waiter.at is At.ASLEEP for waiter in state.waiters]
    if all(ringer.at is Ring.ENDED for ringer in state.ringers):
        return any(asleep)
    has_put = all(ringer.at is Ring.PUT and ringer.left == 0 for ringer in state.ringers)
    return has_put and state.there > 0 and all(asleep)


def explore(case: Case) -> Result:
    """Goes through all states of a case."""
    begin = first_state(case)
    seen = {begin}
    todo = collections.deque([begin])
    lost = 0
    while todo:
        state = todo.popleft()
        lost += is_lost(state)
        for later in steps(case, state):
            if later not in seen:
                seen.add(later)
                todo.append(later)
    return Result(len(seen), lost)


RIGHT = [
    Case(Bell.JOBS, 1, (3,), 2),
    Case(Bell.JOBS, 2, (3,), 1),
    Case(Bell.JOBS, 3, (3,), 0),
    Case(Bell.END, 2, (2,), 1),
    Case(Bell.END, 3, (1,), 0),
    Case(Bell.TURNS, 1, (3,), 2),
    Case(Bell.TURNS, 1, (2, 2), 1),
    Case(Bell.TURNS, 1, (2, 1, 1), 0),
]

WRONG = [
    Case(Bell.READS_FIRST, 1, (2,), 0),
    Case(Bell.HEARS_LATE, 1, (2,), 0),
    Case(Bell.SLEEPS_ANYWAY, 1, (2,), 0),
    Case(Bell.NEVER_WAKES, 2, (2,), 0),
    Case(Bell.READS_MARKS_FIRST, 1, (2,), 0),
    Case(Bell.MARKS_LATE, 1, (2,), 0),
    Case(Bell.READS_WORD_LATE, 2, (3,), 0),
    Case(Bell.NEVER_CALLS, 1, (2,), 0),
    Case(Bell.ENDS_UNHEARD, 1, (1,), 0),
]


def main() -> int:
    faults = 0
    for case in RIGHT + WRONG:
        result = explore(case)
        is_right = case in RIGHT
        puts = " and ".join(str(put) for put in case.puts)
        print(
            f"{case.bell.value}: {case.waiters} waiting, {puts} put, {case.early} early returns: ",
            end="",
        )
        print(f"{result.states} states, {result.lost} lost")
        faults += is_right != (result.lost == 0)
    print(f"{len(RIGHT)} cases of the bells, {len(WRONG)} of changed ones, {faults} wrong")
    return 1 if faults else 0


if __name__ == "__main__":
    sys.exit(main())
