"""The exceptions of the package: what the machine refuses, what ends a run, and what is wrong with a volume's file."""

from __future__ import annotations

from mungi.limits import STATUSES


class Error(Exception):
    """What is above all exceptions of this package. Wrong values that are found before anything is sent are those of
    Python, as ValueError."""


class Refused(Error):
    """The machine refused a call, which changed nothing. `word` is the refusal and `line` the call; each refusal has a
    subclass."""

    def __init__(self, word: str, line: str):
        super().__init__(f"{line} -> no {word}")
        self.word = word
        self.line = line


class Syntax(Refused):
    """The line is no call."""


class NoThread(Refused):
    """No such thread lives."""


class Align(Refused):
    """The address is no multiple of 8."""


class Denied(Refused):
    """No password that the thread's present domain names gives the right there now, or no object is there."""


class Size(Refused):
    """The number of pages is 0 or above 1024."""


class Account(Refused):
    """There is no such account, or the password is not its own."""


class Debt(Refused):
    """The account owes something."""


class Limit(Refused):
    """A table is full: objects, passwords or entries of an object, threads, accounts, or all passwords or births."""


class Full(Refused):
    """The pages in use and the new ones are more than the volume's frames."""


class NoPassword(Refused):
    """No row of the object has this password."""


class Range(Refused):
    """The offset is no multiple of 8, or not below the object's size."""


class SlotFull(Refused):
    """A frame would have more than 8 slots."""


class NoSlot(Refused):
    """There is no such slot."""


class NoEntry(Refused):
    """The address is no entry of the object."""


class Depth(Refused):
    """The thread has 16 frames."""


class NoFrame(Refused):
    """The thread has one frame alone."""


class NotYours(Refused):
    """The thread is another one's, or is thread 1."""


class NotReady(Refused):
    """The thread is not Ready."""


class Idle(Refused):
    """No thread is Ready."""


class Credit(Refused):
    """The balance is less than the sum."""


class Calendar(Refused):
    """The period is the last one, 2**24 - 1."""


class Past(Refused):
    """The period given is not above the present one, or is above 2**24 - 1."""


REFUSALS = {kind.__name__: kind for kind in Refused.__subclasses__()}


class NotAllowed(Error):
    """A broker did not give the line to the machine, so nothing was changed. `word` says why, and `line` is the line;
    docs/SERVICE.md lists the words."""

    def __init__(self, word: str, line: str):
        super().__init__(f"{line} -> refused {word}")
        self.word = word
        self.line = line


class Ended(Error):
    """The program ended before it had answered all lines.

    - `status`: the exit status, or minus the number of the signal that killed it.
    - `said`: what it wrote on standard error, which names the file and the error of the system.
    - `put`: lines on standard output that answer no call, such as "open not" of a file that is no volume.
    - `answered`: of the call or block that was under way, the lines that were answered, each with its answer. **They
      are kept**, as all lines are that were answered before.
    - `unanswered`: the lines that were sent and not answered, in order. A first part of them may be kept: see
      `some_may_be_kept`.
    - `unsent`: the lines that were not sent. They are not kept.

    Open the volume again to go on: it then has the state after a first part of the lines that holds every answered one.
    """

    def __init__(
        self,
        status: int,
        said: str,
        put: list[str],
        answered: list[tuple[str, str]],
        unanswered: list[str],
        unsent: list[str],
    ):
        self.status = status
        self.said = said
        self.put = put
        self.answered = answered
        self.unanswered = unanswered
        self.unsent = unsent
        reason = STATUSES.get(status, f"killed by signal {-status}" if status < 0 else "no status of mungi")
        told = "".join(f"; {text}" for text in (*put, said.strip()) if text)
        super().__init__(
            f"mungi ended with status {status}, {reason}{told}; "
            f"{len(answered)} lines answered, {len(unanswered)} sent and not answered, {len(unsent)} not sent"
        )

    @property
    def some_may_be_kept(self) -> bool:
        """Whether first ones of `unanswered` may be kept.

        - At statuses 5 and 7 the answered lines are kept and no others.
        - At statuses 1, 2, 3 and 9 nothing was read.
        - At statuses 4 and 6, and after a signal, the volume holds the state after the answered lines and none, some or
          all of the unanswered ones, in their order. As the program is built these are at most one batch; tests look
          for this, no proof does.
        """
        return self.status not in (1, 2, 3, 5, 7, 9)


class InputIsFull(Error):
    """The line was not sent, since a run reads at most 2**32 bytes. Close the machine and open it again."""


class ListIsFull(Error):
    """The capability list has 255 entries. Nothing was changed."""


class ListPage(Error, ValueError):
    """The address lies in a page that is a capability list, and the call does not say `into_list=True`. Nothing was
    sent. A store there can take rights away for ever: `store` of 0 to the root's first word locks thread 1 out of all
    that it has."""


class BackupFailed(Error):
    """The script `backup` made no good copy; the text is what it said. The volume is as it was."""


class VolumeWarning(Error, UserWarning):
    """What the program said on standard error about a volume's file while it went on."""


class CutShort(VolumeWarning):
    """The file is shorter than its volume: its end is missing, and what lay there reads as zeros."""


class SideDropped(VolumeWarning):
    """Of a volume in two files one failed, and the run continues with the other alone."""
