"""The plain model of `tests/scripts/rules.py` with a place for each difference of `differences.py`.

With no difference on it answers as that model does, which is the profile; with those of a series on it is the PCM core of
that kernel, as far as scripts reach it. Beside the profile's streams these know whether the card itself runs, which
pointers stand over from an older configuration, and whom the kernel's two queues have woken.
"""

import copy
from typing import NamedTuple, Optional

import differences as linux
import formats
import rules
from rules import OK, Act, Drain, Pause, Prepare, Refusal, Release, Resume, Start, Stop, Suspend, refuse
from tables import DRAINING, MODELS, PAUSED, PREPARED, RUNNING, SETUP, SUSPENDED, XRUN

SLEEPING_STATES = (PREPARED, RUNNING, PAUSED)


class Ring:
    """The frames of a buffer by their slots: what stands in them is what stands in `rules.Puts`, and is quick to copy."""

    def __init__(self, buffer, frame_bytes):
        """Zero frames."""
        self.slots = [bytes(frame_bytes)] * buffer

    def __deepcopy__(self, memo):
        """The same frames in a list of its own."""
        other = copy.copy(self)
        other.slots = list(self.slots)
        return other

    def put(self, position, frames):
        """Puts frames from the position on."""
        for place, frame in enumerate(frames, position):
            self.slots[place % len(self.slots)] = frame

    def standing_from(self, position, count):
        """The frames that stand from the position on."""
        return [self.slots[place % len(self.slots)] for place in range(position, position + count)]


class Stream(rules.Stream):
    """A substream of the kernel."""

    def __init__(self, number, model, playback, world):
        """A substream that no client has opened."""
        self.world = world
        super().__init__(number, model, playback, world.long_max)
        self.group = Group([self])

    def has(self, name):
        """Whether the difference is on; notes that its place was met."""
        on = name in self.world.on
        if on:
            self.world.met.add(name)
        return on

    def make_fresh(self):
        """As the profile; nothing is known of the card, and no pointers stand over."""
        self.card_known = False
        self.last_boundary = 0
        self.standing_over = (0, 0)
        self.shared_wanted = 0
        super().make_fresh()

    def unset(self):
        """As the profile; the pointers shown so far may stand over, until a prepare."""
        kept = linux.hw_params_keeps_pointers(self)
        super().unset()
        self.card_runs = False
        self.standing_over = kept or (0, 0)

    def set_up(self, configuration):
        """As the profile, over a ring."""
        super().set_up(configuration)
        self.puts = Ring(self.buffer, self.frame_bytes)
        self.last_boundary = self.boundary
        self.card_known = True

    def to_start(self):
        """Takes all positions to 0."""
        super().to_start()
        self.silence_start = self.silence_filled = 0
        self.standing_over = None

    # What a client sees

    def pointers_shown(self):
        """The two pointers as the kernel has them."""
        if self.standing_over is not None:
            return self.standing_over
        return self.shown(self.hardware), self.shown(self.application)

    def pointers(self):
        """The answer that shows the pointers."""
        if self.standing_over is None:
            return super().pointers()
        if self.configuration is None and not linux.page_in_open(self):
            return 'ptrs', 0, 0, 0
        hardware, application = self.standing_over
        return 'ptrs', hardware, application, self.available_between(hardware, application)

    def available_between(self, hardware, application):
        """The frames available between two pointers that may stand above the boundary."""
        if self.configuration is None:
            return 0
        available = hardware - application + (self.buffer if self.playback else 0)
        if available < 0:
            return available + self.boundary
        return available - self.boundary if available >= self.boundary else available

    # Updates

    def update(self):
        """Reports where the card stands; answers whether this ended a drain or stopped the group."""
        if not self.runs or linux.update_without_movement_checks_nothing(self):
            return False
        if self.pending > 0:
            self.kernel_silence(self.shown(self.card))
        self.hardware = self.card
        if self.available >= self.boundary:
            self.application += self.boundary
        if not self.has_kernel_silence:
            self.fill_silence()
        return self.check_state()

    def check_state(self):
        """snd_pcm_update_state: answers whether this ended a drain or stopped the group; else wakes who may go on."""
        if self.state == DRAINING:
            if self.available >= self.buffer:
                self.end_drain()
                return True
        elif self.available >= self.software.stop_threshold:
            linux.pause_hangs(self)
            self.group.attempt(Stop(XRUN))
            return True
        self.wake_for(self.available)
        return False

    def end_drain(self):
        """This substream alone has played everything."""
        if self.runs:
            self.card_runs = False
        self.state = SETUP
        self.wake_all()

    @property
    def has_kernel_silence(self):
        """Whether one of the kernel's rules of silence is on."""
        return 'silence_6_1' in self.world.on or 'silence_6_12' in self.world.on

    def kernel_silence(self, new):
        """Silence by a rule of the kernel; answers whether there is such a rule."""
        if not self.playback or self.software.silence_size == 0:
            return self.has_kernel_silence
        return linux.silence_6_1(self, new) or linux.silence_6_12(self, new)

    def fill_silence(self):
        """Silence outside an update, and in one by the profile's rule."""
        if self.playback and not self.kernel_silence(None):
            super().fill_silence()

    # Triggers

    def trigger(self, runs):
        """Asks the card to run or to stand; answers whether it did so."""
        fails = self.consult_plan()
        if not fails:
            self.card_runs = runs
        return not fails

    # The kernel's two queues of sleepers: one for transfers, one for drains that wait for this substream

    def wake_transfers(self):
        """Wakes the queue of transfers."""
        for call in self.sleepers.values():
            call.pending = call.pending or call.wanted is not None

    def wake_drains(self):
        """Wakes the drains of the group that wait for this substream."""
        for member in self.group.members:
            for call in member.sleepers.values():
                call.pending = call.pending or call.waits_for is self

    def wake_all(self):
        """Wakes both queues."""
        self.wake_transfers()
        self.wake_drains()

    def wake_for(self, available):
        """Wakes who wanted so many frames: by one number for all, or each by its own."""
        if self.has('one_twake_for_all_clients'):
            if 0 < self.shared_wanted <= available:
                self.wake_transfers()
        else:
            for call in self.sleepers.values():
                call.pending = call.pending or (call.wanted is not None and available >= call.wanted)
        if self.shared_wanted == 0 and available >= self.software.avail_min:
            self.wake_drains()


# Acts over groups


def check(act, stream):
    """The pre action of this member: refuses as the kernel or the profile does."""
    if isinstance(act, Stop):
        linux.stop_refused_by_open(stream)
    if isinstance(act, (Pause, Release)):
        linux.pause_looks_at_runtime_info(stream)
    if isinstance(act, Resume):
        linux.resume_looks_at_state_first(stream)
    act.check(stream)


def do(act, stream):
    """The do action of this member; answers whether its card did it."""
    if isinstance(act, Pause):
        linux.pause_updates(stream)
    if act.asks(stream):
        done = stream.trigger(runs=not isinstance(act, Pause))
        return done or bool(isinstance(act, Drain) and linux.drain_ignores_start_failure(stream))
    stops = isinstance(act, (Stop, Suspend)) or (isinstance(act, Prepare) and act.stop_first)
    ends_capture = isinstance(act, Drain) and not stream.playback
    if (stops or ends_capture) and stream.runs:
        stream.card_runs = False
    return True


def undo(act, stream, ran):
    """The undo action of a member that did the act."""
    if isinstance(act, Resume) and linux.undo_resume_leaves_running(stream):
        return
    if linux.undo_consults_plan(stream, act):
        return
    stream.card_runs = ran and not isinstance(act, Start)


def undo_failed(act, stream):
    """What the kernel does with a lone substream whose card failed. A pause whose own update stopped it is let be."""
    if isinstance(act, Start):
        stream.card_runs = False
    elif stream.state != XRUN:
        linux.undo_consults_plan(stream, act)


def post(act, stream):
    """The post action of this member, and whom it wakes."""
    ends_capture = isinstance(act, Drain) and not stream.playback and stream.state == RUNNING
    stops = isinstance(act, (Stop, Pause, Suspend)) or (isinstance(act, Prepare) and act.stop_first)
    act.change(stream)
    if stops or ends_capture:
        stream.wake_all()


class Group(rules.Group):
    """Linked substreams, whose acts are the kernel's in their four parts."""

    def order(self):
        """The members in the order in which they are asked."""
        return linux.link_order_newest_first(self.members[0]) or self.members

    def act(self, act: Act):
        """Makes the act over all members, or refuses."""
        order = self.order()
        for member in order:
            check(act, member)
        done = []
        for member in order:
            ran = member.card_runs
            if not do(act, member):
                self.undo(act, done, member)
                raise Refusal('EIO')
            done.append((member, ran))
        for member in order:
            post(act, member)

    def undo(self, act, done, failed):
        """Undoes what members did before one failed."""
        for member, ran in done:
            undo(act, member, ran)
        if not self.linked:
            undo_failed(act, failed)

    def attempt(self, act):
        """Makes the act, and passes over a refusal."""
        try:
            self.act(act)
        except Refusal:
            pass


# Calls in progress


class Transfer(rules.Transfer):
    """A write or a read of the kernel."""

    waits_for = None

    def __init__(self, *numbers):
        """As the profile; nobody has woken it."""
        super().__init__(*numbers)
        self.pending = False
        self.cause: Optional[str] = None

    def loop(self):
        """Moves frames; the end of the call takes the shared number away and may look at the state."""
        try:
            reply = self.turns()
        except Refusal:
            self.stream.shared_wanted = 0
            if self.moved == 0:
                raise
            return self.answer()
        if reply is self:
            self.stream.shared_wanted = self.wanted
            return self
        self.stream.shared_wanted = 0
        if self.moved > 0:
            linux.xfer_checks_state_at_end(self.stream)
        return reply

    def nothing_available(self):
        """As the profile."""
        if not self.writing and self.stream.state == DRAINING:
            self.stream.group.attempt(Stop(SETUP))
            return self.answer()
        return super().nothing_available()

    def move(self, count):
        """Moves frames; a write's are in the buffer before the kernel looks whether it may go on."""
        stream = self.stream
        if stream.state == XRUN:
            if self.writing:
                stream.puts.put(stream.application, self.frames[self.moved:self.moved + count])
            raise Refusal('EPIPE')
        linux.capture_draining_no_read(stream)
        super().move(count)

    def go_on(self):
        """Goes on where the client is awake and enough frames are available."""
        stream = self.stream
        if self.asleep:
            return self
        if stream.state == DRAINING and not stream.playback:
            if linux.draining_reader_gets_nothing(stream):
                return self.ends_with_drain()
            return self.loop()
        if stream.state not in SLEEPING_STATES:
            stream.shared_wanted = 0
            return super().go_on()
        shared = stream.has('one_twake_for_all_clients')
        if stream.available < (stream.shared_wanted if shared else self.wanted):
            return self
        return self.loop()

    def ends_with_drain(self):
        """The end of a reader whose stream was stopped under it."""
        self.stream.shared_wanted = 0
        if self.moved > 0:
            linux.xfer_checks_state_at_end(self.stream)
        return self.answer()


class DrainWait(rules.DrainWait):
    """A client that waits for the end of a drain: for one draining member at a time."""

    wanted = None

    def __init__(self, stream):
        """Waits for the first member that drains."""
        super().__init__(stream)
        self.pending = False
        self.cause: Optional[str] = None
        self.look()

    def look(self):
        """Finds the member to wait for; answers whether there is one."""
        draining = [member for member in self.stream.group.order() if member.playback and member.state == DRAINING]
        self.waits_for = draining[0] if draining else None
        return bool(draining)

    def go_on(self):
        """The answer where the drain is over; the call itself where it has to sleep on."""
        if self.asleep or self.look():
            return self
        refuse(self.stream.state == SUSPENDED and not linux.drain_suspended_ok(self.stream), 'ESTRPIPE')
        return OK


# Calls of clients


def call_hw(stream, *numbers):
    """hw_params."""
    if stream.sleepers and linux.may_set_up(stream, 'HwParams'):
        linux.hw_while_called(stream)
    return rules.call_hw(stream, *numbers)


def call_hwfree(stream):
    """hw_free."""
    if stream.sleepers and linux.may_set_up(stream, 'HwFree'):
        linux.hw_while_called(stream)
    return rules.call_hwfree(stream)


def call_sw(stream, *numbers):
    """sw_params."""
    rules.call_sw(stream, *numbers)
    if stream.runs:
        linux.sw_params_puts_silence(stream)
        linux.sw_params_checks_state(stream)
    return OK


def call_prepare(stream):
    """prepare: a paused or suspended group is stopped first."""
    stop_first = stream.state in (PAUSED, SUSPENDED)
    if stop_first and linux.prepare_and_drop_release_first(stream):
        stream.group.attempt(Stop(SETUP))
        stop_first = False
    stream.group.act(Prepare(stop_first))
    return OK


def call_drop(stream):
    """drop."""
    stream.require('DropNow')
    linux.prepare_and_drop_release_first(stream)
    stream.group.attempt(Stop(SETUP))
    return OK


def call_xrun(stream):
    """xrun."""
    stream.require('Xrun')
    if stream.state == RUNNING:
        stream.group.attempt(Stop(XRUN))
    return OK


def call_drain(stream, mode):
    """drain."""
    stream.require('Drain')
    if stream.state == PAUSED and not linux.drain_ignores_release(stream):
        stream.group.act(Release())
    stream.group.act(Drain())
    refuse(mode == 'n', 'EAGAIN')
    return DrainWait(stream) if stream.group.drains else OK


def call_sync(stream, pointer):
    """sync_ptr."""
    if stream.standing_over is None:
        return rules.call_sync(stream, pointer)
    if not (stream.opened_only and linux.sync_in_open(stream)):
        stream.require('SyncPtr')
    hardware, application = stream.standing_over
    own_value = pointer == application and (stream.has('sync_in_open') or stream.has('hw_params_keeps_pointers'))
    refuse(pointer >= stream.last_boundary and not own_value, 'EINVAL')
    stream.standing_over = (hardware, pointer)
    return 'ptrs', hardware, pointer, stream.available_between(hardware, pointer)


def call_status(stream):
    """status: zeros in OPEN, and the frames available without a sign."""
    if stream.opened_only:
        return 'ptrs', 0, 0, 0
    stream.update()
    kind, hardware, application, available = stream.pointers()
    return kind, hardware, application, available % 2 ** 64


def write_call(planar):
    """The call that writes, planar or interleaved."""
    def call(stream, mode, data):
        """A write."""
        rules.check_transfer(stream, True, planar)
        refuse(len(data) % stream.frame_bytes != 0, 'EINVAL')
        frames = rules.frames_of(data, stream.configuration, planar)
        return begin_transfer(Transfer(stream, True, planar, mode == 'b', frames, len(frames)))
    return call


def read_call(planar):
    """The call that reads, planar or interleaved."""
    def call(stream, mode, count):
        """A read."""
        rules.check_transfer(stream, False, planar)
        refuse(count > rules.GREATEST_READ, 'EINVAL')
        return begin_transfer(Transfer(stream, False, planar, mode == 'b', [], count))
    return call


def begin_transfer(transfer):
    """The first step of a transfer that fits: a refused one too takes the shared number away."""
    if transfer.rest == 0:
        return transfer.answer()
    try:
        first_step(transfer)
    except Refusal:
        transfer.stream.shared_wanted = 0
        raise
    return transfer.loop()


def first_step(transfer):
    """The table, an update, and the start that a read may make."""
    stream = transfer.stream
    if not transfer.writing:
        linux.capture_draining_no_read(stream)
    stream.require('Write' if transfer.writing else 'Read')
    stream.shared_wanted = stream.software.avail_min
    if stream.state == RUNNING and stream.update():
        refuse(not linux.xfer_ignores_update(stream), 'EPIPE')
    if not transfer.writing and stream.state == PREPARED and transfer.rest >= stream.software.start_threshold:
        stream.group.act(Start())


def card_move(stream, count):
    """The card moves, where it runs itself, whatever the state."""
    if not stream.card_runs:
        return ('idle',)
    if stream.pending + count >= stream.buffer:
        return 'late', stream.buffer - 1 - stream.pending
    frames = (stream.puts.standing_from(stream.card, count) if stream.playback
              else rules.move_capture(stream, count))
    stream.card += count
    stream.moved += count
    return 'moved', count, b''.join(frames) if stream.playback else None


CALLS = dict(
    rules.CALLS, hw=call_hw, hwfree=call_hwfree, sw=call_sw, prepare=call_prepare, drop=call_drop, xrun=call_xrun,
    drain=call_drain, sync=call_sync, status=call_status, move=card_move, writei=write_call(planar=False),
    writen=write_call(planar=True), readi=read_call(planar=False), readn=read_call(planar=True))


# The world


class World(rules.World):
    """All substreams, with the differences that are on."""

    def __init__(self, on):
        """The differences are names."""
        super().__init__()
        self.on = frozenset(on)
        self.met = set()
        self.word = ''
        self.cut = False
        self.in_pause = False

    def declare(self, number, model, direction):
        """Declares a substream."""
        refuse(number in self.streams, 'EBUSY')
        self.streams[number] = Stream(number, MODELS[model], direction == 'p', self)
        return OK

    def step(self, line):
        """Executes a line."""
        self.word = line.word
        return super().step(line)

    def event(self, line):
        """The reply to a call or an event."""
        if line.word in ('open', 'link', 'unlink'):
            return super().event(line)
        return CALLS[line.word](self.there(line.sub), *line.values)

    def unlink(self, stream):
        """The substream leaves its group; the drains that wait in it look again."""
        refuse(not stream.group.linked, 'EALREADY')
        for member in stream.group.members:
            member.wake_drains()
        stream.group.members.remove(stream)
        stream.group = Group([stream])
        return OK

    def wake(self):
        """Wakes whom the kernel's queues or the profile's check say, by the difference that decides."""
        return tuple(client for client, call in sorted(self.calls.items()) if self.wakes(call))

    def wakes(self, call):
        """Whether this call in progress is woken by the step."""
        woken = not call.may_wait()
        if call.asleep and call.pending != woken:
            if call.cause is None or call.pending:
                call.cause = linux.wake_cause(call.stream, call, self.word)
            if call.stream.has(call.cause):
                woken = call.pending
        else:
            call.cause = None
        call.pending = False
        if not (call.asleep and woken):
            return False
        call.asleep, call.cause = False, None
        return True

    def end_lines(self):
        """The lines behind the transcript."""
        lines = []
        for number, stream in sorted(self.streams.items()):
            _, hardware, application, _ = stream.pointers()
            moved = stream.moved if stream.configuration else 0
            lines.append('end s%d %s hw %d appl %d moved %d' % (number, stream.state, hardware, application, moved))
        return lines


class Played(NamedTuple):
    """What the model makes of a script: its transcript, which differences were met, and what cut it short."""
    lines: list
    met: frozenset
    cut: Optional[str]
    executed: int


def play(lines, on):
    """The transcript of a script under these differences."""
    world, told = World(on), []
    for number, raw in enumerate(lines, 1):
        line = line_of(raw)
        if line is None:
            continue
        try:
            told.append(told_line(world, number, line))
        except linux.Hang:
            return Played(told, frozenset(world.met), 'hang', number - 1)
        if world.cut:
            return Played(told + world.end_lines(), frozenset(world.met), 'set up under a call', number)
    return Played(told + world.end_lines(), frozenset(world.met), None, len(lines))


def line_of(raw):
    """The line that these bytes are; None where version 2 of the language passes over them."""
    return None if formats.is_skipped(2, raw) else formats.read_line(raw)


def told_line(world, number, line):
    """One line of the transcript, without its line feed."""
    told = rules.Told(OK, None) if line.word == 'version' else world.step(line)
    return formats.told_text(number, told)[:-1]
