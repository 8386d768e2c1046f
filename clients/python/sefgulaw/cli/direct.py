"""Answers a request in this process, without a daemon."""

from __future__ import annotations

import gc
import os
from collections.abc import Callable, Iterator
from contextlib import contextmanager

from sefgulaw.allocator import NoAllocator, find_allocator
from sefgulaw.answers import Answers
from sefgulaw.base import Base, Options
from sefgulaw.cli.output import BAD_WORDS, NO_ANSWER, Failure, say
from sefgulaw.mirror import BrokenLoader, Progress
from sefgulaw.plain import Members
from sefgulaw.roots import find_loader, no_loader
from sefgulaw.requests import BadWords, End, Question, Tree, read_patterns
from sefgulaw.settings import BadSettings, Settings, StandIns, read_settings
from sefgulaw.settling import Settling
from sefgulaw.watch import RootGone
from sefgulaw.watching import Subscription, Update
from sefgulaw.wire import NoLoader, Stopped

WAITING = 60.0


def settings_of(root: bytes) -> Settings:
    """Reads the tree's settings."""
    try:
        return read_settings(root)
    except BadSettings as error:
        raise Failure(BAD_WORDS, str(error)) from None


def options_of(
    settings: Settings,
    loader: str | None,
    workers: int | None,
    stand_ins: StandIns | None = None,
    allocator: str | None = None,
) -> Options:
    """Joins the tree's settings and the command's words."""
    program = find_loader(loader)
    if program is None:
        raise Failure(NO_ANSWER, no_loader(loader))
    number = workers or settings.workers
    try:
        chosen = find_allocator(allocator, settings.allocator, program)
    except NoAllocator as error:
        raise Failure(NO_ANSWER, str(error)) from None
    return Options(
        program,
        number,
        settings.deadline_seconds,
        settings.ignored,
        stand_ins or settings.stand_ins,
        settings.rules,
        chosen,
    )


@contextmanager
def failures(root: bytes) -> Iterator[None]:
    """Turns what went wrong with a tree or its loader into failures of the command."""
    try:
        yield
    except BadWords as error:
        raise Failure(BAD_WORDS, str(error)) from None
    except RootGone as error:
        words = f"{os.fsdecode(root)}: the tree cannot be read: {error}"
        raise Failure(NO_ANSWER, words) from None
    except (NoLoader, BrokenLoader, Stopped) as error:
        raise Failure(NO_ANSWER, str(error)) from None


def answer(
    root: bytes,
    options: Options,
    method: str,
    asked: Members,
    take: Callable[[bytes], None],
    progress: Progress,
) -> End:
    """Answers one request; `take` gets each line as it comes.

    The process ends with the answer, so no garbage is looked for.
    """
    gc.disable()
    with failures(root):
        answers = Answers(Tree(Base.open(root, options, progress)))
        try:
            answered = answers.answer(method, asked)
            for line in answered.lines:
                take(line)
            return answered.end
        finally:
            answers.close()


def watched(
    root: bytes, options: Options, question: Question, progress: Progress
) -> Iterator[Update]:
    """Yields an answer, and after each change what is new."""
    with failures(root):
        base = Base.open_watched(root, options, say, progress)
        tree = Tree(base)
        try:
            base.refresh()
            subscription = Subscription(tree, read_patterns(base, question))
            base.take_touched()
            yield subscription.first()
            settling = Settling(base.watch, root)

            def take() -> None:
                base.refresh()
                subscription.touch(base.take_touched())
                subscription.prepare()

            while True:
                if settling.wait(WAITING, take):
                    update = subscription.update()
                    if update is not None:
                        yield update
        finally:
            tree.close()
