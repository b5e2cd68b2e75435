"""What a Linux kernel does otherwise than the profile: one small function a difference, and a table of them.

A function below is called where the model of `kernel.py` comes to its place. It does nothing there unless its difference
is on in the world that is played; then its answer, or what it has done, goes in the place of the profile's rule. Each
names the kernel's function that it speaks of, in sound/core/pcm_native.c or pcm_lib.c. A smallest script for each lies in
`smallest/`, under the difference's name.
"""

from functools import wraps
from typing import NamedTuple

from rules import Pause, Release, Stop, refuse, silent_byte
from tables import DRAINING, OPEN, PAUSED, PREPARED, RUNNING, SETUP, SUSPENDED, XRUN, permit

SERIES = ('6.1', '6.12')
WAITING = (PREPARED, RUNNING, PAUSED)
TAKING_CALLS = ('writei', 'writen', 'readi', 'readn', 'forward')

UPDATES, WAKES, TRIGGERS, DRAINS, SILENCE, PARAMETERS = SUBJECTS = (
    'updates', 'wakes', 'triggers and undo', 'drain', 'silence', 'parameters and pointers')


class Difference(NamedTuple):
    """One difference: its name, what a driver author would look under, the kernel's functions, and where it is met."""
    name: str
    subject: str
    functions: str
    series: tuple
    text: str


class Hang(Exception):
    """The kernel never comes back from this call."""


DIFFERENCES = {}
WAKE_CAUSES = []


def enter(body, subject, functions, series):
    """Enters a function's difference in the table."""
    DIFFERENCES[body.__name__] = Difference(body.__name__, subject, functions, series, body.__doc__)


def difference(subject, functions, series=SERIES):
    """Makes a function the body of a difference: where that is off, a call does nothing and answers None."""
    def make(body):
        """The function that looks first."""
        enter(body, subject, functions, series)

        @wraps(body)
        def looked_at(stream, *others):
            """The body, where the difference is on."""
            return body(stream, *others) if stream.has(body.__name__) else None
        return looked_at
    return make


def wake_difference(functions, series=SERIES):
    """Makes a function tell whether this difference is why the kernel wakes another client than the profile does.

    The functions are asked in the order in which they stand, and the first that says yes is the cause."""
    def make(body):
        """The function itself."""
        enter(body, WAKES, functions, series)
        WAKE_CAUSES.append(body)
        return body
    return make


def those_of(series):
    """The names of all differences of a kernel series."""
    return frozenset(name for name, each in DIFFERENCES.items() if series in each.series)


# Updates


@difference(UPDATES, 'snd_pcm_update_hw_ptr0')
def update_without_movement_checks_nothing(stream):
    """An update that finds no movement puts no silence and does not look at the state."""
    return stream.pending == 0


@difference(UPDATES, '__snd_pcm_lib_xfer')
def xfer_ignores_update(stream):
    """A transfer goes on where its own update has stopped the substream: a write's frames come into the buffer before
    EPIPE is answered, and where no frames are available the answer is EAGAIN, or the client falls asleep in XRUN."""
    return True


@difference(UPDATES, '__snd_pcm_lib_xfer')
def xfer_checks_state_at_end(stream):
    """A transfer that moved frames looks at the state at its end, in PREPARED and PAUSED too."""
    stream.check_state()


@difference(UPDATES, 'snd_pcm_sw_params')
def sw_params_checks_state(stream):
    """Software parameters set on a running substream are followed by a look at the state, which may end a drain."""
    refuse(stream.check_state(), 'EPIPE')


@difference(UPDATES, 'snd_pcm_do_pause', ('6.1',))
def pause_updates(stream):
    """A pause makes an update of each member first."""
    stream.world.in_pause = stream.group.linked
    stream.update()
    stream.world.in_pause = False


@difference(UPDATES, 'snd_pcm_do_pause', ('6.1',))
def pause_hangs(stream):
    """A pause of linked substreams whose update finds an underrun never comes back: it stops the group, whose lock it
    holds."""
    if stream.world.in_pause:
        raise Hang()


# Triggers and undo


@difference(TRIGGERS, 'snd_pcm_group_assign')
def link_order_newest_first(stream):
    """The members of a group are asked newest link first."""
    return stream.group.members[::-1]


@difference(TRIGGERS, 'snd_pcm_pre_pause')
def pause_looks_at_runtime_info(stream):
    """A pause or its release answers ENOSYS before any accepted hw_params."""
    refuse(not stream.card_known, 'ENOSYS')


@difference(TRIGGERS, 'snd_pcm_pre_resume')
def resume_looks_at_state_first(stream):
    """A resume looks at the state before it looks at the card."""
    refuse(stream.state != SUSPENDED, 'EBADFD')


@difference(TRIGGERS, 'snd_pcm_pre_stop')
def stop_refused_by_open(stream):
    """A member in OPEN lets nothing of its group stop, and the caller does not hear of it."""
    refuse(stream.state == OPEN, 'EBADFD')


@difference(TRIGGERS, 'snd_pcm_prepare, snd_pcm_drop')
def prepare_and_drop_release_first(stream):
    """A prepare or drop in PAUSED releases the group first, whatever the cards say, and then stops it."""
    if stream.state == PAUSED:
        stream.group.attempt(Release())
    return True


@difference(TRIGGERS, 'snd_pcm_undo_pause, snd_pcm_action_single')
def undo_consults_plan(stream, act):
    """The undo of a pause or release is a trigger that may fail itself; a lone substream that failed is undone too."""
    if isinstance(act, (Pause, Release)):
        stream.trigger(runs=isinstance(act, Pause))
        return True
    return None


@difference(TRIGGERS, 'snd_pcm_undo_resume')
def undo_resume_leaves_running(stream):
    """A resume that is undone leaves the cards of the members before the failing one running, in SUSPENDED."""
    return True


# Drain


@difference(DRAINS, 'snd_pcm_do_drain_init')
def drain_ignores_start_failure(stream):
    """A drain goes to DRAINING although its start trigger failed, and the card stands."""
    return True


@difference(DRAINS, 'snd_pcm_drain')
def drain_ignores_release(stream):
    """A drain in PAUSED passes over a release that fails."""
    stream.group.attempt(Release())
    return True


@difference(DRAINS, 'snd_pcm_drain')
def drain_suspended_ok(stream):
    """A sleeping drain whose substream was suspended answers ok."""
    return True


@difference(DRAINS, 'pcm_accessible_state')
def capture_draining_no_read(stream):
    """A read of a capture in DRAINING is refused with EBADFD."""
    refuse(stream.state == DRAINING and not stream.playback, 'EBADFD')


@difference(DRAINS, 'wait_for_avail')
def draining_reader_gets_nothing(stream):
    """A reader that slept when the drain came gets no frames, and the group stops."""
    stream.group.attempt(Stop(SETUP))
    return True


# Silence. `new` is the hardware pointer to be, None outside an update; all numbers are below the boundary


@difference(SILENCE, 'snd_pcm_sw_params')
def sw_params_puts_silence(stream):
    """Software parameters set on a running substream put silence."""
    stream.fill_silence()


@difference(SILENCE, 'snd_pcm_playback_silence', ('6.1',))
def silence_6_1(stream, new):
    """In 6.1 silence with a threshold begins at the application pointer each time, and counts from the hardware pointer
    before the update; silence without end is counted anew from where the last one began."""
    if stream.software.silence_size >= stream.boundary:
        return endless_silence_6_1(stream, new)
    return bounded_silence_6_1(stream)


def bounded_silence_6_1(stream):
    """The part of a threshold."""
    application, software = stream.shown(stream.application), stream.software
    if stream.silence_start != application:
        passed = (application - stream.silence_start) % stream.boundary
        stream.silence_filled = max(0, stream.silence_filled - passed)
        stream.silence_start = application
    ahead = stream.queued + stream.silence_filled
    if stream.silence_filled >= stream.buffer or ahead >= software.silence_threshold:
        return True
    put_silence(stream, stream.silence_start, min(software.silence_threshold - ahead, software.silence_size))
    return True


def endless_silence_6_1(stream, new):
    """The part of a silence_size of the boundary."""
    hardware = stream.shown(stream.hardware)
    if new is None:
        queued = stream.queued if 0 <= stream.queued <= stream.buffer else stream.buffer
        stream.silence_filled, stream.silence_start = queued, (hardware + queued) % stream.boundary
    else:
        left = stream.silence_filled - (new - hardware) % stream.boundary
        stream.silence_filled, stream.silence_start = (left, hardware) if left >= 0 else (0, new)
    put_silence(stream, stream.silence_start, stream.buffer - stream.silence_filled)
    return True


@difference(SILENCE, 'snd_pcm_playback_silence', ('6.12',))
def silence_6_12(stream, new):
    """In 6.12 silence with a threshold goes on from the end of the last fill, and stops where the hardware pointer has
    passed the application pointer, since that distance wraps."""
    if stream.software.silence_size >= stream.boundary:
        return endless_silence_6_12(stream, new)
    return bounded_silence_6_12(stream, new)


def bounded_silence_6_12(stream, new):
    """The part of a threshold."""
    application, software = stream.shown(stream.application), stream.software
    hardware = stream.shown(stream.hardware) if new is None else new
    silence_passed(stream, stream.silence_start, application)
    ahead = (application - hardware) % stream.boundary + stream.silence_filled
    if ahead < software.silence_threshold:
        count = min(software.silence_threshold - ahead, software.silence_size)
        put_silence(stream, stream.silence_start + stream.silence_filled, count)
    return True


def endless_silence_6_12(stream, new):
    """The part of a silence_size of the boundary."""
    hardware = stream.shown(stream.hardware)
    if new is None:
        queued = (stream.application - stream.hardware) % stream.boundary
        stream.silence_filled = 0 if queued > stream.buffer else queued
        stream.silence_start = hardware
    else:
        silence_passed(stream, hardware, new)
    put_silence(stream, stream.silence_start + stream.silence_filled, stream.buffer - stream.silence_filled)
    return True


def silence_passed(stream, old, new):
    """A pointer has gone from the old to the new place over what was filled."""
    passed = (new - old) % stream.boundary
    if passed:
        stream.silence_filled = max(0, stream.silence_filled - passed)
        stream.silence_start = new


def put_silence(stream, place, count):
    """Puts silence, of at most a buffer, and counts it."""
    if 0 < count <= stream.buffer:
        stream.puts.put(place, [silent_byte(stream.configuration.format) * stream.frame_bytes] * count)
        stream.silence_filled += count


# Parameters and pointers


@difference(PARAMETERS, 'snd_pcm_hw_params')
def hw_params_keeps_pointers(stream):
    """hw_params and hw_free leave both pointers as they were, above a smaller boundary too; prepare alone sets them."""
    return stream.pointers_shown()


@difference(PARAMETERS, 'snd_pcm_sync_ptr')
def page_in_open(stream):
    """The page shows the pointers in OPEN too."""
    return True


@difference(PARAMETERS, 'snd_pcm_sync_ptr, pcm_lib_apply_appl_ptr')
def sync_in_open(stream):
    """A sync of the pointers works in OPEN, by the boundary of the last configuration."""
    return True


@difference(PARAMETERS, 'snd_pcm_buffer_access_lock')
def hw_while_called(stream):
    """hw_params and hw_free go through while a client sleeps on the substream. What follows is not compared."""
    stream.world.cut = True
    stream.sleepers = {}


# Wakes. `call` is the client's call in progress; `call.pending` says that the kernel has woken it


def transfers(call):
    """Whether the call is a write or a read."""
    return call.wanted is not None


@wake_difference('snd_pcm_post_pause')
def pause_wakes_everybody(stream, call, word):
    """A pause wakes all that sleep on a member."""
    return call.pending and word == 'pause'


@wake_difference('snd_pcm_drain, snd_pcm_update_state')
def drain_wakes_early(stream, call, word):
    """A drain waits on one member's queue and is woken with it, where avail_min frames are available too."""
    return call.pending and not transfers(call)


@wake_difference('snd_pcm_prepare, snd_pcm_post_stop')
def prepare_stops_and_wakes(stream, call, word):
    """A prepare in PAUSED or SUSPENDED stops first, and that wakes all."""
    return call.pending and word == 'prepare'


@wake_difference('snd_pcm_update_state')
def woken_before_the_frames_are_taken(stream, call, word):
    """The update inside a transfer or forward wakes a sleeper, and that call then takes the frames."""
    return call.pending and word in TAKING_CALLS


@wake_difference('snd_pcm_rewind, snd_pcm_forward, snd_pcm_sync_ptr')
def pointer_calls_wake_nobody(stream, call, word):
    """A rewind, forward or sync of another client that makes enough frames available wakes nobody."""
    return (not call.pending and transfers(call) and stream.state in WAITING
            and word in ('rewind', 'forward', 'sync'))


@wake_difference('snd_pcm_post_prepare')
def prepare_wakes_nobody(stream, call, word):
    """A prepare of another client that makes enough frames available wakes nobody."""
    return not call.pending and transfers(call) and stream.state in WAITING and word == 'prepare'


@wake_difference('__snd_pcm_lib_xfer, snd_pcm_update_state')
def one_twake_for_all_clients(stream, call, word):
    """The clients of a substream share one wanted number, and the end of any transfer, a refused one too, makes it 0:
    the others are no longer woken by updates."""
    if call.pending:
        return True
    other_number = stream.shared_wanted == 0 or stream.shared_wanted > (call.wanted or 0)
    return transfers(call) and stream.state in WAITING and other_number


@wake_difference('snd_pcm_do_drain_init')
def drain_wakes_nobody(stream, call, word):
    """A drain of a playback by another client wakes no writer; the next interrupt does."""
    return not call.pending and transfers(call) and word == 'drain'


def wake_cause(stream, call, word):
    """The name of the difference by which the kernel's queues and the profile's check say otherwise of this call."""
    for body in WAKE_CAUSES:
        if body(stream, call, word):
            return body.__name__
    if word in ('hw', 'hwfree'):
        return hw_while_called.__name__
    # It falls asleep where its own update has stopped the substream.
    if transfers(call) and word in TAKING_CALLS and stream.state in (XRUN, SETUP):
        return xfer_ignores_update.__name__
    return ''


def may_set_up(stream, call):
    """Whether the state and the mappings let hw_params or hw_free come as far as the calls in progress."""
    return permit(call, stream.state, stream.playback) is None and stream.mappings == 0
