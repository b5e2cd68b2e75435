"""Follows a script and its transcript line by line: states, pointers, and what happened, for each substream.

What a transcript says is taken as it stands. Between two answers that show the pointers they are followed: a write moves the
application's, a movement the card's, and an update reports where the card stands. Pointers are kept as positions that go
on over the boundary. Where an answer shows other pointers than those that were followed, the answer counts.
"""

STATES = ('OPEN', 'SETUP', 'PREPARED', 'RUNNING', 'XRUN', 'DRAINING', 'PAUSED', 'SUSPENDED', 'DISCONNECTED', 'CLOSED')
WITHOUT_CARD = ('OPEN', 'CLOSED', 'DISCONNECTED')
DEFAULT_LONG = 2147483647
UPDATES = ('irq', 'status', 'hwsync', 'delay', 'rewind', 'forward')
TRANSFERS = ('writei', 'writen', 'readi', 'readn')
CARD_WORDS = ('move', 'irq', 'fail', 'unplug', 'give', 'feed', 'save', 'carry')
GROUP_STATES = {'start': 'RUNNING', 'drop': 'SETUP', 'pause': 'PAUSED', 'release': 'RUNNING', 'suspend': 'SUSPENDED'}


class Answer:
    """A line of the transcript: its number, the reply's words, the state that is shown, and the clients that were woken."""

    def __init__(self, text):
        """The text is that of the line."""
        words = text.split(' ')
        self.number = int(words[0])
        self.woken = words[words.index('wake') + 1:] if 'wake' in words else []
        words = words[1:words.index('wake')] if 'wake' in words else words[1:]
        self.state = words[-1] if words[-1] in STATES else None
        self.reply = words[:-1]

    @property
    def accepted(self):
        """Whether the call was made: any answer but an error and busy."""
        return self.reply[0] not in ('err', 'busy')

    @property
    def count(self):
        """The frames that the answer tells, 0 where it tells none."""
        return int(self.reply[1]) if self.reply[0] in ('frames', 'moved') else 0


class Sleeper:
    """A transfer in progress."""

    def __init__(self, track, total, moved):
        """So many frames were asked for and moved so far."""
        self.track = track
        self.total = total
        self.moved = moved
        self.wanted = min(total - moved, track.avail_min)


class Track:
    """One substream as it is followed, with a sample of it after each line and the marks of what happened."""

    def __init__(self, name, playback):
        """Declared and closed."""
        self.name = name
        self.playback = playback
        self.group = [self]
        self.state = 'CLOSED'
        self.kept = None
        self.samples = []
        self.marks = []
        self.unset()

    def unset(self):
        """Without a configuration."""
        self.buffer = self.boundary = self.frame_bytes = self.avail_min = 0
        self.to_start()

    def to_start(self):
        """All pointers at 0."""
        self.hardware = self.application = self.card = 0

    @property
    def runs(self):
        """Whether the card runs."""
        return self.state == 'RUNNING' or (self.state == 'DRAINING' and self.playback)

    @property
    def head(self):
        """The position up to which a client may move frames."""
        return self.hardware + self.buffer if self.playback else self.hardware

    @property
    def available(self):
        """Frames that a client may move."""
        return self.head - self.application

    def update(self):
        """The card's position is reported."""
        if self.runs:
            self.hardware = self.card

    def near(self, position, shown):
        """The position that is shown so and lies nearest to this one."""
        ahead = (shown - position) % self.boundary
        return position + ahead if 2 * ahead <= self.boundary else position + ahead - self.boundary

    def show_pointers(self, hardware, application):
        """Takes over pointers that an answer shows; answers whether they were followed right."""
        if not self.buffer:
            return True
        wanted = (self.near(self.hardware, hardware), self.near(self.application, application))
        right = wanted == (self.hardware, self.application)
        self.card = max(self.card, wanted[0])
        self.hardware, self.application = wanted
        return right


def boundary_of(buffer, long_max):
    """The number at which shown pointers begin again at 0."""
    boundary = buffer
    while boundary * 2 <= long_max - buffer:
        boundary *= 2
    return boundary


def sample_bytes(sample_format):
    """Bytes of a sample: by the width in the format's name, but for the three bytes of S24_3LE."""
    if sample_format == 'S24_3LE':
        return 3
    return {'8': 1, '16': 2, '24': 4, '32': 4}[sample_format.split('_')[0][1:]]


class Follower:
    """All substreams of a script."""

    def __init__(self, script, transcript):
        """Follows the whole script; both are texts."""
        self.tracks = {}
        self.sleepers = {}
        self.long_max = DEFAULT_LONG
        self.lines = []
        self.differences = []
        texts = script.split('\n')
        for text in transcript.split('\n'):
            if text and not text.startswith('end '):
                answer = Answer(text)
                self.follow(texts[answer.number - 1].split(' '), answer)

    def follow(self, words, answer):
        """One line, and a sample of every substream after it."""
        column = len(self.lines)
        self.lines.append((answer.number, ' '.join(words)))
        track = self.track_of(words)
        if words[0] == 'long' and answer.accepted:
            self.long_max = int(words[1])
        if words[0] == 'card' and answer.accepted:
            track = self.tracks[words[1]] = Track(words[1], words[3] == 'p')
        if track is not None and answer.reply[0] == 'busy':
            track.marks.append((column, 'error', 'busy', ''))
        elif track is not None:
            self.follow_call(track, words, answer, column)
        self.mark_woken(answer, column)
        for each in self.tracks.values():
            each.samples.append((column, each.state, each.buffer, each.boundary, each.hardware, each.application, each.card))

    def track_of(self, words):
        """The substream that a line names first, if it is declared."""
        if words[0] == 'go':
            sleeper = self.sleepers.get(words[1])
            return sleeper.track if sleeper else None
        place = 1 if words[0] in CARD_WORDS + ('card',) else 2
        return self.tracks.get(words[place]) if len(words) > place else None

    def follow_call(self, track, words, answer, column):
        """The pointers and states that a call or an event of a card leaves."""
        before = track.state
        if words[0] in UPDATES and not (words[0] in ('rewind', 'forward') and words[3] == '0'):
            track.update()
        self.follow_setup(track, words, answer)
        self.follow_frames(track, words, answer, column)
        self.follow_group(track, words[0], answer, before)
        if answer.state is not None:
            track.state = answer.state
        if answer.reply[0] == 'ptrs':
            self.follow_pointers(track, answer, column, sets=words[0] == 'sync')
        self.mark(track, words, answer, before, column)

    def follow_setup(self, track, words, answer):
        """Configurations, software parameters and groups."""
        word = words[0]
        if word == 'hw' and (answer.accepted or answer.state == 'OPEN'):
            track.unset()
        if not answer.accepted:
            return
        if word == 'hw':
            channels, _, period, periods = (int(piece) for piece in words[5:9])
            track.buffer, track.avail_min = period * periods, period
            track.boundary = boundary_of(track.buffer, self.long_max)
            track.frame_bytes = channels * sample_bytes(words[4])
        elif word in ('hwfree', 'close'):
            track.unset()
        elif word == 'sw':
            track.avail_min = int(words[3])
        elif word == 'link':
            track.group.append(self.tracks[words[3]])
            self.tracks[words[3]].group = track.group
        elif word == 'unlink':
            track.group.remove(track)
            track.group = [track]

    def follow_frames(self, track, words, answer, column):
        """Frames that a transfer, a pointer call or a movement moves."""
        word = words[0]
        if word in TRANSFERS:
            self.follow_transfer(track, words, answer)
        elif word == 'go':
            self.follow_go(track, words[1], answer)
        elif word == 'rewind':
            track.application -= answer.count
        elif word == 'forward':
            track.application += answer.count
        elif word == 'move' and answer.reply[0] == 'moved':
            track.card += answer.count
            shown = answer.reply[2] if len(answer.reply) > 2 else ''
            track.marks.append((column, 'move', '%d' % answer.count, shown))

    def follow_transfer(self, track, words, answer):
        """A write or a read: one that sleeps has moved all that was available."""
        if not track.buffer or answer.reply[:2] in (['err', 'EINVAL'], ['err', 'EBADFD']):
            return
        writing = words[0].startswith('write')
        total = len(words[4]) // 2 // track.frame_bytes if writing else int(words[4])
        if track.state == 'RUNNING' and total > 0:
            track.update()
        moved = answer.count
        if answer.reply[0] == 'asleep':
            moved = track.available
            self.sleepers[words[1]] = Sleeper(track, total, moved)
        track.application += moved

    def follow_go(self, track, client, answer):
        """A call that goes on, or waits again."""
        sleeper = self.sleepers[client]
        if sleeper.total is None:
            if answer.reply[0] != 'asleep':
                del self.sleepers[client]
        elif answer.reply[0] == 'asleep':
            if track.available >= sleeper.wanted:
                sleeper.moved += track.available
                track.application += track.available
                sleeper.wanted = min(sleeper.total - sleeper.moved, track.avail_min)
        else:
            track.application += max(0, answer.count - sleeper.moved)
            del self.sleepers[client]

    def follow_group(self, track, word, answer, before):
        """What an act over the group makes of its members; the state that is shown counts for the one that is named."""
        after = answer.state
        if word == 'drain' and (answer.accepted or answer.reply[1:2] == ['EAGAIN']):
            self.follow_drain(track, answer)
        elif word == 'prepare' and answer.accepted:
            for member in track.group:
                member.to_start()
                member.state = 'PREPARED'
        elif word == 'resume' and answer.accepted:
            for member in track.group:
                member.state = member.kept or member.state
        elif word in GROUP_STATES and answer.accepted:
            self.set_states(track, GROUP_STATES[word])
        elif (before, after) in (('PREPARED', 'RUNNING'), ('RUNNING', 'XRUN')):
            self.set_states(track, after)
        elif after == 'SETUP' and before == 'DRAINING' and not track.playback:
            self.set_states(track, 'SETUP')
        elif word == 'unplug' and answer.accepted and track.runs:
            self.set_states(track, 'SETUP')

    def set_states(self, track, state):
        """All members that have a card and a client go to this state."""
        for member in track.group:
            if state == 'SUSPENDED':
                member.kept = member.state
            if member.state not in WITHOUT_CARD:
                member.state = state

    def follow_drain(self, track, answer):
        """Each member's part in a drain."""
        for member in track.group:
            state = 'RUNNING' if member.state == 'PAUSED' else member.state
            left = member.available < member.buffer if member.playback else member.available > 0
            if state == 'RUNNING' and (member.playback or left):
                member.state = 'DRAINING'
            elif state == 'PREPARED' and member.playback and left:
                member.state = 'DRAINING'
            elif state == 'RUNNING' or (state in ('PREPARED', 'XRUN') and member.playback):
                member.state = 'SETUP'

    def follow_pointers(self, track, answer, column, sets):
        """An answer that shows the pointers; a call that sets one may show another than before."""
        hardware, application = int(answer.reply[2]), int(answer.reply[4])
        right = track.show_pointers(hardware, application)
        if not right and not sets:
            self.differences.append('line %d shows hw %d appl %d, which does not follow from the lines before'
                                    % (answer.number, hardware, application))
        if track.buffer:
            track.marks.append((column, 'pointers', '', ''))

    def mark(self, track, words, answer, before, column):
        """Marks of what is not seen in states and pointers."""
        if answer.state == 'XRUN' and before != 'XRUN':
            track.marks.append((column, 'xrun', '', ''))
        if answer.reply[0] == 'asleep':
            track.marks.append((column, 'sleep', words[1], ''))
            if words[0] == 'drain':
                sleeper = Sleeper(track, 0, 0)
                sleeper.total = None
                self.sleepers[words[1]] = sleeper
        if answer.reply[0] == 'err':
            track.marks.append((column, 'error', answer.reply[1], ''))
        if answer.reply[0] in ('late', 'idle', 'limit'):
            track.marks.append((column, 'error', ' '.join(answer.reply), ''))
        if words[0] == 'fail' and answer.accepted:
            track.marks.append((column, 'fault', '', ''))

    def mark_woken(self, answer, column):
        """Marks each client that was woken, on the substream where it slept."""
        for client in answer.woken:
            if client in self.sleepers:
                self.sleepers[client].track.marks.append((column, 'wake', client, ''))
