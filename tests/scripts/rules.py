"""The rules of the layer: streams kept as unbounded lists of puts, acts over groups, and the world of all substreams.

Positions are whole numbers without bound: nothing wraps here, and no ring holds frames. What a client sees of a position
is its remainder by the boundary.
"""

from typing import NamedTuple, Optional

from tables import (CLOSED, DEFAULT_LONG, DISCONNECTED, DRAINING, GREATEST_LONG, GREATEST_MAPPINGS, GREATEST_READ,
                    GREATEST_TAKEN, LEAST_LONG, MODELS, OPEN, PAUSED, PLAN_LENGTH, PREPARED, RUNNING, SETUP, SUSPENDED,
                    XRUN, Configuration, accepted, boundary_of, permit, silent_byte)

OK = ('ok',)
ASLEEP = ('asleep',)


class Refusal(Exception):
    """The error that a call answers."""

    def __init__(self, name):
        """The name is that of the error number."""
        super().__init__(name)
        self.name = name


def answer(act):
    """The reply of an act, or its refusal as a reply."""
    try:
        return act()
    except Refusal as refusal:
        return 'err', refusal.name


def refuse(wrong, name):
    """Refuses with this error where something is wrong."""
    if wrong:
        raise Refusal(name)


# Frames


def frames_of(data, configuration, planar):
    """The frames of a transfer's bytes: frame after frame, or all samples of one channel after those of another."""
    size = configuration.frame_bytes
    count = len(data) // size
    if not planar:
        return [data[i * size:(i + 1) * size] for i in range(count)]
    width = size // configuration.channels
    samples = [data[i * width:(i + 1) * width] for i in range(count * configuration.channels)]
    return [b''.join(samples[i::count]) for i in range(count)]


def bytes_of(frames, configuration, planar):
    """The bytes of these frames, in one of the two orders."""
    if not planar:
        return b''.join(frames)
    width = configuration.frame_bytes // configuration.channels
    return b''.join(frame[channel * width:(channel + 1) * width]
                    for channel in range(configuration.channels) for frame in frames)


class Puts:
    """All frames that were put, the oldest first: runs of frames, each from a position on."""

    def __init__(self, buffer, frame_bytes):
        """Nothing was put yet."""
        self.buffer = buffer
        self.zero_frame = bytes(frame_bytes)
        self.runs = []

    def put(self, position, frames):
        """Puts frames from the position on."""
        if frames:
            self.runs.append((position, frames))

    def standing(self, position):
        """The last frame put at a position that differs from this one by whole buffers."""
        for first, frames in reversed(self.runs):
            ahead = (position - first) % self.buffer
            if ahead < len(frames):
                rounds = (len(frames) - 1 - ahead) // self.buffer
                return frames[ahead + rounds * self.buffer]
        return self.zero_frame

    def standing_from(self, position, count):
        """The frames that stand from the position on."""
        return [self.standing(position + i) for i in range(count)]


class Software(NamedTuple):
    """The software parameters."""
    avail_min: int
    start_threshold: int
    stop_threshold: int
    silence_threshold: int
    silence_size: int

    def refused(self, buffer, boundary):
        """Whether these are no software parameters for such a buffer."""
        if self.avail_min == 0:
            return True
        if self.silence_size >= boundary:
            return self.silence_threshold != 0
        return self.silence_size > self.silence_threshold or self.silence_threshold > buffer


class Stream:
    """One substream with everything that belongs to it."""

    def __init__(self, number, model, playback, long_max):
        """A substream that no client has opened, in a group of its own."""
        self.number = number
        self.model = model
        self.playback = playback
        self.long_max = long_max
        self.group = Group([self])
        self.make_fresh()

    def make_fresh(self):
        """CLOSED, with nothing configured, all lists empty and no fault planned."""
        self.state: str = CLOSED
        self.kept: Optional[str] = None
        self.plan = [False] * PLAN_LENGTH
        self.sleepers = {}
        self.unset()

    def unset(self):
        """Takes the configuration away, with the buffer and the card's lists."""
        self.configuration: Optional[Configuration] = None
        self.software: Optional[Software] = None
        self.buffer = self.boundary = self.frame_bytes = 0
        self.puts: Optional[Puts] = None
        self.mappings = 0
        self.moved = 0
        self.taken = []
        self.to_give = []
        self.to_start()

    def to_start(self):
        """Takes all positions to 0: reported, application's, card's and end of the last fill."""
        self.hardware = self.application = self.card = self.filled = 0

    def set_up(self, configuration):
        """Sets up the configuration with the software parameters that go with it."""
        self.unset()
        self.configuration = configuration
        self.buffer = configuration.buffer
        self.frame_bytes = configuration.frame_bytes
        self.boundary = boundary_of(self.buffer, self.long_max)
        self.puts = Puts(self.buffer, self.frame_bytes)
        self.software = Software(configuration.period, 1, self.buffer, 0, 0)

    def require(self, call):
        """Refuses where the state does not permit the call."""
        error = permit(call, self.state, self.playback)
        refuse(error is not None, error)

    @property
    def opened_only(self):
        """Whether it is in OPEN, or was when its card was removed."""
        return self.configuration is None

    def runs_in(self, state):
        """Whether a stream like this one runs in the state."""
        return state == RUNNING or (state == DRAINING and self.playback)

    @property
    def runs(self):
        """Whether the stream runs, and so its card."""
        return self.runs_in(self.state)

    @property
    def available(self):
        """Frames that a client may move."""
        if self.configuration is None:
            return 0
        head = self.hardware + self.buffer if self.playback else self.hardware
        return head - self.application

    @property
    def queued(self):
        """Frames that a client may take back; negative where more are available than the buffer holds."""
        return self.buffer - self.available

    @property
    def pending(self):
        """Frames that the card moved and no update reported."""
        return self.card - self.hardware

    def shown(self, position):
        """What a client sees of a position."""
        return position % self.boundary if self.configuration else 0

    def pointers(self):
        """The answer that shows the pointers."""
        return 'ptrs', self.shown(self.hardware), self.shown(self.application), self.available

    def update(self):
        """Reports where the card stands; answers whether this ended a drain or stopped the group."""
        if not self.runs:
            return False
        self.hardware = self.card
        if self.available >= self.boundary:
            self.application += self.boundary
        if self.playback:
            self.fill_silence()
        if self.state == DRAINING and self.available >= self.buffer:
            self.state = SETUP
            return True
        if self.state == RUNNING and self.available >= self.software.stop_threshold:
            self.group.act(Stop(XRUN))
            return True
        return False

    def update_or_refuse(self):
        """An update that refuses with EPIPE where it ended a drain or stopped the group."""
        refuse(self.update(), 'EPIPE')

    def fill_silence(self):
        """Puts silence ahead of what the application has put, as the software parameters ask."""
        first = max(self.application, self.filled, self.hardware)
        if self.software.silence_size >= self.boundary:
            count = self.hardware + self.buffer - first
        elif first < self.hardware + self.software.silence_threshold:
            count = min(self.software.silence_size, self.hardware + self.software.silence_threshold - first)
        else:
            count = 0
        if count > 0:
            silent_frame = silent_byte(self.configuration.format) * self.frame_bytes
            self.puts.put(first, [silent_frame] * count)
            self.filled = first + count

    def consult_plan(self):
        """Takes the first entry of the fault plan away; answers whether it was set."""
        fails = self.plan.pop(0)
        self.plan.append(False)
        return fails

    def fitting_layout(self, planar):
        """Whether a planar or an interleaved transfer fits the access."""
        if planar:
            return self.configuration.access == 'RW_NONINTERLEAVED'
        return self.configuration.access == 'RW_INTERLEAVED' or self.configuration.channels == 1


# Acts over groups


class Act:
    """A step that is made over all members of a group or over none."""

    def check(self, stream):
        """Refuses where this member does not let the act happen."""

    def asks(self, stream):
        """Whether the act consults this member's fault plan."""
        return False

    def change(self, stream):
        """Makes the act on this member."""


class Start(Act):
    """The card starts."""

    def check(self, stream):
        """By the table; a playback stream with nothing queued has an underrun at once."""
        stream.require('Start')
        refuse(stream.playback and stream.software.stop_threshold < stream.boundary
               and stream.available >= stream.buffer, 'EPIPE')

    def asks(self, stream):
        """Always."""
        return True

    def change(self, stream):
        """RUNNING, and silence on playback."""
        stream.state = RUNNING
        if stream.playback:
            stream.fill_silence()


class Stop(Act):
    """The card stops, and the stream goes to the state SETUP or XRUN."""

    def __init__(self, state):
        """The state is that of each member afterwards."""
        self.state = state

    def change(self, stream):
        """Passes over members that have no card or no client."""
        if stream.state not in (OPEN, CLOSED, DISCONNECTED):
            stream.state = self.state
            stream.kept = None


class Prepare(Act):
    """Positions go back to 0, and the stream can start."""

    def __init__(self, stop_first):
        """With stop_first any member is stopped first, whatever its state."""
        self.stop_first = stop_first

    def check(self, stream):
        """By the table; with stop_first only where there is nothing to prepare."""
        if not self.stop_first:
            stream.require('Prepare')
        refuse(stream.state == CLOSED, 'ENXIO')
        refuse(stream.state in (OPEN, DISCONNECTED), 'EBADFD')

    def change(self, stream):
        """PREPARED; the frames in the buffer stay."""
        stream.state = PREPARED
        stream.kept = None
        stream.to_start()


class Pause(Act):
    """The card stops and keeps its place."""

    def check(self, stream):
        """ENOSYS where the card can't pause, then by the table."""
        refuse(not stream.model.can_pause, 'ENOSYS')
        stream.require('PausePush')

    def asks(self, stream):
        """Always."""
        return True

    def change(self, stream):
        """PAUSED."""
        stream.state = PAUSED


class Release(Act):
    """The card goes on after a pause."""

    def check(self, stream):
        """ENOSYS where the card can't pause, then by the table."""
        refuse(not stream.model.can_pause, 'ENOSYS')
        stream.require('PauseRelease')

    def asks(self, stream):
        """Always."""
        return True

    def change(self, stream):
        """RUNNING."""
        stream.state = RUNNING


class Suspend(Act):
    """The machine goes to sleep, and the state is kept aside."""

    def check(self, stream):
        """By the table."""
        stream.require('Suspend')

    def change(self, stream):
        """SUSPENDED."""
        stream.kept = stream.state
        stream.state = SUSPENDED


class Resume(Act):
    """The machine is awake again."""

    def check(self, stream):
        """ENOSYS where the card can't resume, then by the table."""
        refuse(not stream.model.can_resume, 'ENOSYS')
        stream.require('Resume')

    def asks(self, stream):
        """Where the card has to run again."""
        return stream.runs_in(stream.kept)

    def change(self, stream):
        """The state that was kept."""
        stream.state = stream.kept
        stream.kept = None


class Drain(Act):
    """What is queued is played, and what was recorded can still be read."""

    def check(self, stream):
        """By the table."""
        stream.require('Drain')

    def starts(self, stream):
        """Whether the drain has to start the card."""
        return stream.playback and stream.state == PREPARED and stream.available < stream.buffer

    def asks(self, stream):
        """Where the card has to start."""
        return self.starts(stream)

    def change(self, stream):
        """DRAINING where frames are left, else SETUP; members that have nothing to drain stay."""
        if stream.playback:
            self.change_playback(stream)
        elif stream.state == RUNNING:
            stream.state = DRAINING if stream.available > 0 else SETUP

    def change_playback(self, stream):
        """The part of a playback member."""
        if self.starts(stream):
            stream.state = DRAINING
            stream.fill_silence()
        elif stream.state == RUNNING:
            stream.state = DRAINING
        elif stream.state in (PREPARED, XRUN):
            stream.state = SETUP


class Watch(Act):
    """Looks whether a drain goes on."""

    def check(self, stream):
        """EAGAIN while a playback member drains."""
        refuse(stream.playback and stream.state == DRAINING, 'EAGAIN')


class Group:
    """Substreams that are linked, in the order of linking; a group of one is a group."""

    def __init__(self, members):
        """The members are streams."""
        self.members = members

    @property
    def linked(self):
        """Whether it has two members or more."""
        return len(self.members) >= 2

    @property
    def drains(self):
        """Whether a playback member drains."""
        return any(member.playback and member.state == DRAINING for member in self.members)

    def act(self, act):
        """Makes the act over all members, or refuses and leaves all as they were but for the plans of those asked."""
        for member in self.members:
            act.check(member)
        for member in [member for member in self.members if act.asks(member)]:
            refuse(member.consult_plan(), 'EIO')
        for member in self.members:
            act.change(member)


# Calls in progress


class Transfer:
    """A write or a read, and what is left of it."""

    def __init__(self, stream, writing, planar, blocking, frames, count):
        """The frames are those to write, or the list that a read fills."""
        self.stream = stream
        self.writing = writing
        self.planar = planar
        self.blocking = blocking
        self.frames = frames
        self.rest = count
        self.moved = 0
        self.wanted = 0
        self.asleep = False

    def answer(self):
        """The reply that tells what was moved."""
        if self.writing:
            return 'frames', self.moved
        return 'read', self.moved, bytes_of(self.frames, self.stream.configuration, self.planar)

    def loop(self):
        """Moves frames until nothing rests or none are available; answers what moved in place of an error."""
        try:
            return self.turns()
        except Refusal:
            if self.moved == 0:
                raise
            return self.answer()

    def turns(self):
        """The turns of the loop."""
        stream = self.stream
        while self.rest > 0:
            if stream.available == 0:
                return self.nothing_available()
            to_ring_end = stream.buffer - stream.application % stream.buffer
            self.move(min(self.rest, stream.available, to_ring_end))
            if self.writing and stream.state == PREPARED and stream.queued >= stream.software.start_threshold:
                stream.group.act(Start())
        return self.answer()

    def nothing_available(self):
        """A capture drain is over, a call that does not block is refused, one that blocks falls asleep."""
        stream = self.stream
        if not self.writing and stream.state == DRAINING:
            stream.group.act(Stop(SETUP))
            return self.answer()
        refuse(not self.blocking, 'EAGAIN')
        self.wanted = min(self.rest, stream.software.avail_min)
        return self

    def move(self, count):
        """Moves frames between the call and the stream."""
        stream = self.stream
        if self.writing:
            stream.puts.put(stream.application, self.frames[self.moved:self.moved + count])
        else:
            self.frames += stream.puts.standing_from(stream.application, count)
        stream.application += count
        self.rest -= count
        self.moved += count

    def may_wait(self):
        """Whether it must go on sleeping."""
        return self.stream.state in (PREPARED, RUNNING, PAUSED) and self.stream.available < self.wanted

    def go_on(self):
        """Goes on where frames are available; the call itself where it has to sleep on."""
        if self.may_wait():
            return self
        state, playback = self.stream.state, self.stream.playback
        if state in (PREPARED, RUNNING, PAUSED) or (state == DRAINING and not playback):
            return self.loop()
        if self.moved > 0:
            return self.answer()
        raise Refusal({SUSPENDED: 'ESTRPIPE', XRUN: 'EPIPE', DRAINING: 'EPIPE'}.get(state, 'EBADFD'))


class DrainWait:
    """A client that waits for the end of a drain."""

    def __init__(self, stream):
        """It waits for all playback members of the stream's group."""
        self.stream = stream
        self.asleep = False

    def may_wait(self):
        """Whether it must go on sleeping."""
        return self.stream.state != DISCONNECTED and self.stream.group.drains

    def go_on(self):
        """The answer where the drain is over; the call itself where it has to sleep on."""
        refuse(self.stream.state == DISCONNECTED, 'EBADFD')
        try:
            self.stream.group.act(Watch())
        except Refusal:
            return self
        refuse(self.stream.state == SUSPENDED, 'ESTRPIPE')
        return OK


# Calls of clients


def call_open(stream):
    """Opens a substream that is closed."""
    refuse(stream.state != CLOSED, 'EBUSY')
    stream.state = OPEN
    return OK


def call_close(stream):
    """Closes it, which also puts a removed card back."""
    refuse(stream.group.linked or stream.mappings > 0 or stream.sleepers, 'EBUSY')
    stream.make_fresh()
    return OK


def call_hw(stream, *numbers):
    """hw_params."""
    stream.require('HwParams')
    refuse(stream.mappings > 0, 'EBADFD')
    refuse(stream.sleepers, 'EBUSY')
    configuration = Configuration(*numbers)
    if not accepted(stream.model, configuration, stream.long_max):
        stream.unset()
        stream.state = OPEN
        raise Refusal('EINVAL')
    stream.set_up(configuration)
    stream.state = SETUP
    return OK


def call_hwfree(stream):
    """hw_free."""
    stream.require('HwFree')
    refuse(stream.mappings > 0, 'EBADFD')
    refuse(stream.sleepers, 'EBUSY')
    stream.unset()
    stream.state = OPEN
    return OK


def call_sw(stream, *numbers):
    """sw_params."""
    stream.require('SwParams')
    software = Software(*numbers)
    refuse(software.refused(stream.buffer, stream.boundary), 'EINVAL')
    stream.software = software
    return OK


def call_prepare(stream):
    """Prepares the group; a paused or suspended one is stopped first."""
    stream.group.act(Prepare(stop_first=stream.state in (PAUSED, SUSPENDED)))
    return OK


def act_call(act):
    """The call that makes this act over the group."""
    def call(stream):
        """The act, or its refusal."""
        stream.group.act(act())
        return OK
    return call


def call_drop(stream):
    """Stops the group at once."""
    stream.require('DropNow')
    stream.group.act(Stop(SETUP))
    return OK


def call_xrun(stream):
    """Stops a running group as an xrun does."""
    stream.require('Xrun')
    if stream.state == RUNNING:
        stream.group.act(Stop(XRUN))
    return OK


def call_drain(stream, mode):
    """Drains the group; a call that blocks waits for the end."""
    stream.require('Drain')
    if stream.state == PAUSED:
        stream.group.act(Release())
    stream.group.act(Drain())
    refuse(mode == 'n', 'EAGAIN')
    try:
        stream.group.act(Watch())
    except Refusal:
        return DrainWait(stream)
    return OK


def check_transfer(stream, writing, planar):
    """Refuses a transfer that does not fit the substream."""
    refuse(stream.playback != writing, 'EINVAL')
    refuse(stream.opened_only, 'EBADFD')
    refuse(not stream.fitting_layout(planar), 'EINVAL')


def write_call(planar):
    """The call that writes, planar or interleaved."""
    def call(stream, mode, data):
        """A write."""
        check_transfer(stream, True, planar)
        refuse(len(data) % stream.frame_bytes != 0, 'EINVAL')
        frames = frames_of(data, stream.configuration, planar)
        return begin(Transfer(stream, True, planar, mode == 'b', frames, len(frames)))
    return call


def read_call(planar):
    """The call that reads, planar or interleaved."""
    def call(stream, mode, count):
        """A read."""
        check_transfer(stream, False, planar)
        refuse(count > GREATEST_READ, 'EINVAL')
        return begin(Transfer(stream, False, planar, mode == 'b', [], count))
    return call


def begin(transfer):
    """The first step of a transfer that fits."""
    stream = transfer.stream
    if transfer.rest == 0:
        return transfer.answer()
    stream.require('Write' if transfer.writing else 'Read')
    if stream.state == RUNNING:
        stream.update_or_refuse()
    if not transfer.writing and stream.state == PREPARED and transfer.rest >= stream.software.start_threshold:
        stream.group.act(Start())
    return transfer.loop()


def call_rewind(stream, count):
    """Takes queued frames back."""
    if count == 0:
        return 'frames', 0
    stream.require('Rewind')
    stream.update_or_refuse()
    moved = max(0, min(count, stream.queued))
    stream.application -= moved
    return 'frames', moved


def call_forward(stream, count):
    """Passes over available frames."""
    if count == 0:
        return 'frames', 0
    stream.require('Forward')
    stream.update_or_refuse()
    moved = max(0, min(count, stream.available))
    stream.application += moved
    return 'frames', moved


def call_hwsync(stream):
    """An update."""
    stream.require('Hwsync')
    stream.update_or_refuse()
    return OK


def call_delay(stream):
    """An update, and how far the application is from the card."""
    stream.require('Delay')
    stream.update_or_refuse()
    return 'delay', stream.queued if stream.playback else stream.available


def call_sync(stream, pointer):
    """Sets the application position to the one that is shown so, with less than a boundary available."""
    stream.require('SyncPtr')
    refuse(pointer >= stream.boundary, 'EINVAL')
    head = stream.application + stream.available
    stream.application = head - (head - pointer) % stream.boundary
    return stream.pointers()


def call_status(stream):
    """An update, and the pointers."""
    stream.update()
    return stream.pointers()


def call_page(stream):
    """The pointers."""
    return stream.pointers()


def call_poll(stream):
    """Whether a transfer could go on."""
    if stream.state in (RUNNING, PREPARED, PAUSED):
        return 'poll', 'ready' if stream.available >= stream.software.avail_min else 'none'
    if stream.state == DRAINING and stream.playback:
        return 'poll', 'none'
    if stream.state == DRAINING and stream.available > 0:
        return 'poll', 'ready'
    return 'poll', 'error'


def call_mmap(stream):
    """Maps the buffer."""
    stream.require('Map')
    refuse(not stream.configuration.access.startswith('MMAP'), 'EINVAL')
    refuse(stream.mappings == GREATEST_MAPPINGS, 'EBUSY')
    stream.mappings += 1
    return OK


def call_munmap(stream):
    """Takes one mapping away."""
    refuse(stream.mappings == 0, 'EINVAL')
    stream.mappings -= 1
    return OK


def call_store(stream, offset, data):
    """Puts frames into the mapped buffer."""
    refuse(not stream.playback or stream.mappings == 0 or len(data) % stream.frame_bytes != 0, 'EINVAL')
    frames = frames_of(data, stream.configuration, planar=False)
    refuse(offset + len(frames) > stream.buffer, 'EINVAL')
    stream.puts.put(offset, frames)
    return 'frames', len(frames)


def call_load(stream, offset, count):
    """Gets frames out of the mapped buffer."""
    refuse(stream.mappings == 0 or offset + count > stream.buffer, 'EINVAL')
    return 'read', count, b''.join(stream.puts.standing_from(offset, count))


# Events of cards


def card_move(stream, count):
    """The card moves: it takes frames or puts them."""
    if not stream.runs:
        return ('idle',)
    if stream.pending + count >= stream.buffer:
        return 'late', stream.buffer - 1 - stream.pending
    frames = move_playback(stream, count) if stream.playback else move_capture(stream, count)
    if frames is None:
        return 'limit', (len(stream.taken) + count) * stream.frame_bytes
    stream.card += count
    stream.moved += count
    return 'moved', count, b''.join(frames) if stream.playback else None


def move_playback(stream, count):
    """The frames that the card takes; None where these would be too many in all."""
    if (len(stream.taken) + count) * stream.frame_bytes > GREATEST_TAKEN:
        return None
    frames = stream.puts.standing_from(stream.card, count)
    stream.taken += frames
    return frames


def move_capture(stream, count):
    """The frames that the card puts: the next to give, then zero frames."""
    frames = stream.to_give[:count]
    del stream.to_give[:count]
    frames += [bytes(stream.frame_bytes)] * (count - len(frames))
    stream.puts.put(stream.card, frames)
    return frames


def card_irq(stream):
    """An interrupt: an update whose outcome the state shows."""
    stream.update()
    return OK


def card_fail(stream, entry):
    """Plans that the trigger of this number from now fails."""
    refuse(not 1 <= entry <= PLAN_LENGTH, 'EINVAL')
    stream.plan[entry - 1] = True
    return OK


def card_give(stream, data):
    """The frames that a capture card will put."""
    refuse(stream.opened_only or stream.playback or len(data) % stream.frame_bytes != 0, 'EINVAL')
    stream.to_give = frames_of(data, stream.configuration, planar=False)
    return OK


def card_unplug(stream):
    """The card is removed; a running group stops, and this stream alone is disconnected."""
    stream.require('Unplug')
    if stream.runs:
        stream.group.act(Stop(SETUP))
    stream.state = DISCONNECTED
    stream.kept = None
    return OK


CALLS = {
    'open': call_open, 'close': call_close, 'hw': call_hw, 'hwfree': call_hwfree, 'sw': call_sw, 'prepare': call_prepare,
    'start': act_call(Start), 'drop': call_drop, 'pause': act_call(Pause), 'release': act_call(Release),
    'suspend': act_call(Suspend), 'resume': act_call(Resume), 'xrun': call_xrun, 'drain': call_drain,
    'writei': write_call(planar=False), 'writen': write_call(planar=True),
    'readi': read_call(planar=False), 'readn': read_call(planar=True),
    'rewind': call_rewind, 'forward': call_forward, 'hwsync': call_hwsync, 'delay': call_delay, 'sync': call_sync,
    'status': call_status, 'page': call_page, 'poll': call_poll, 'mmap': call_mmap, 'munmap': call_munmap,
    'store': call_store, 'load': call_load,
    'move': card_move, 'irq': card_irq, 'fail': card_fail, 'give': card_give, 'unplug': card_unplug,
}


# The world


class Told(NamedTuple):
    """What a step tells: the reply, the state that is shown or None, and the clients that it woke."""
    reply: tuple
    state: Optional[str]
    woken: tuple = ()


class World:
    """All substreams, their groups and the calls in progress."""

    def __init__(self):
        """No card is declared."""
        self.long_max = DEFAULT_LONG
        self.streams = {}
        self.calls = {}

    def state_of(self, number):
        """The state that is shown for this substream."""
        return self.streams[number].state if number in self.streams else CLOSED

    def set_long(self, number):
        """Sets LONG_MAX, which every card declared later has."""
        refuse(bool(self.streams), 'EBUSY')
        refuse(not LEAST_LONG <= number <= GREATEST_LONG, 'EINVAL')
        self.long_max = number
        return OK

    def declare(self, number, model, direction):
        """Declares a substream."""
        refuse(number in self.streams, 'EBUSY')
        self.streams[number] = Stream(number, MODELS[model], direction == 'p', self.long_max)
        return OK

    def there(self, number):
        """The substream of this number; refuses where it is not declared or closed."""
        refuse(self.state_of(number) == CLOSED, 'ENXIO')
        return self.streams[number]

    def step(self, line):
        """Executes a line that names a call of a client, an event of a card or a session's word."""
        if line.word == 'long':
            return Told(answer(lambda: self.set_long(*line.values)), None)
        if line.word == 'card':
            return Told(answer(lambda: self.declare(line.sub, *line.values)), self.state_of(line.sub))
        if line.word == 'go':
            return self.step_go(line.client)
        if line.client in self.calls:
            return Told(('busy', line.client), self.state_of(line.sub))
        reply = answer(lambda: self.event(line))
        if isinstance(reply, (Transfer, DrainWait)):
            reply = self.put_to_sleep(line.client, reply)
        return Told(reply, self.state_of(line.sub), self.wake())

    def event(self, line):
        """The reply to a call or an event, or the call itself where it has to sleep."""
        if line.word == 'open' and line.sub in self.streams:
            return call_open(self.streams[line.sub])
        stream = self.there(line.sub)
        if line.word == 'link':
            return self.link(stream, *line.values)
        if line.word == 'unlink':
            return self.unlink(stream)
        if line.word == 'carry':
            return self.carry(stream, *line.values)
        return CALLS[line.word](stream, *line.values)

    def step_go(self, client):
        """Goes on with the call in progress of this client."""
        if client not in self.calls:
            return Told(('err', 'EINVAL'), None)
        call = self.calls[client]
        reply = answer(call.go_on)
        if reply is call:
            reply = self.put_to_sleep(client, call)
        else:
            del self.calls[client]
            del call.stream.sleepers[client]
        return Told(reply, call.stream.state, self.wake())

    def put_to_sleep(self, client, call):
        """The client sleeps in this call."""
        call.asleep = True
        call.stream.sleepers[client] = call
        self.calls[client] = call
        return ASLEEP

    def wake(self):
        """Wakes every client that sleeps and may not wait; its number is in the answer."""
        woken = [client for client, call in sorted(self.calls.items()) if call.asleep and not call.may_wait()]
        for client in woken:
            self.calls[client].asleep = False
        return tuple(woken)

    def link(self, stream, number):
        """The second substream joins the group of the first."""
        second = self.there(number)
        refuse(second is stream, 'EINVAL')
        stream.require('Link')
        refuse(second.state != stream.state, 'EBADFD')
        refuse(second.group.linked, 'EALREADY')
        stream.group.members.append(second)
        second.group = stream.group
        return OK

    def unlink(self, stream):
        """The substream leaves its group; one that is left alone is linked no more."""
        stream.require('Unlink')
        refuse(not stream.group.linked, 'EALREADY')
        stream.group.members.remove(stream)
        stream.group = Group([stream])
        return OK

    def carry(self, stream, number):
        """Gives the second substream what the first one's card took and the second one's has not put yet."""
        second = self.there(number)
        refuse(not stream.playback or stream.opened_only, 'EINVAL')
        refuse(second.playback or second.opened_only, 'EINVAL')
        refuse(stream.frame_bytes != second.frame_bytes, 'EINVAL')
        return card_give(second, b''.join(stream.taken[second.moved:]))
