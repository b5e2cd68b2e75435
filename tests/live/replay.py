#!/usr/bin/env python3
"""Replays the logs of a live run, each by itself, and says where one does not play.

    python3 replay.py plan.txt < logs

The plan's lines tell which calls the clients make and which events the cards have. Each log is played by the plain rules of
tests/scripts on one stream alone: an act over a group is made by what the log tells of the vote and the outcome. An entry whose
line is another than the rules give is out of place. Then the logs are held against one another: each part in an act has the
entry that made it, all members of a room have all its acts, a link stands in both logs, and moves follow links and unlinks.
"""

import os
import sys
from collections import defaultdict

sys.path.insert(0, os.path.join(os.path.dirname(os.path.abspath(__file__)), '..', 'scripts'))

import formats
import rules
from model import Ends, feed
from rules import DrainWait, Refusal, Stream, Transfer, World, answer, bytes_of
from tables import CLOSED, MODELS, permit
from wav import BITS_OF_FORMAT, Wav, write_wav

LONE_ROOMS = 16
ACTS = {
    'start': rules.Start, 'pause': rules.Pause, 'release': rules.Release, 'suspend': rules.Suspend, 'resume': rules.Resume,
    'drain': rules.Drain, 'watch': rules.Watch, 'prepare': lambda: rules.Prepare(False),
    'prepare-stop': lambda: rules.Prepare(True), 'stop-SETUP': lambda: rules.Stop('SETUP'), 'stop-XRUN': lambda: rules.Stop('XRUN'),
}


class OutOfPlace(Exception):
    """An entry that the rules do not give."""


def require(right, text, *values):
    """Something that holds of every history."""
    if not right:
        raise OutOfPlace(text % values if values else text)


# What a log tells


class Joint:
    """One substream's part in an act."""

    def __init__(self, text):
        """From its text: the act, the room, the place among the room's acts, the vote and the outcome."""
        pieces = text.split(' ')
        require(len(pieces) == 5 and pieces[0] in ACTS and pieces[1][:1] == 'r', 'no part in an act: %s', text)
        self.act, self.vote, self.outcome = pieces[0], pieces[3], pieces[4]
        self.room, self.serial = int(pieces[1][1:]), int(pieces[2])

    @property
    def key(self):
        """What all members tell alike."""
        return self.room, self.serial, self.act, self.outcome

    @property
    def error(self):
        """The error that the outcome gives; None where the act is done."""
        if self.outcome == 'done':
            return None
        return 'EIO' if self.outcome.startswith('failed') else self.outcome.split('-')[2]

    @property
    def decider(self):
        """The substream that refused or failed; None where the act is done."""
        return None if self.outcome == 'done' else int(self.outcome.split('-')[1][1:])


class LoggedGroup:
    """The group of one substream, as far as its log tells of it."""

    def __init__(self, stream):
        """It stands alone in its own room."""
        self.stream = stream
        self.members = [stream]
        self.room = stream.number
        self.joints = []
        self.made = []

    @property
    def linked(self):
        """Whether others stand in its room."""
        return self.room >= LONE_ROOMS

    def act(self, act):
        """An act that the substream's own call makes: the next that its entry tells of."""
        require(self.joints, 'an act that the entry does not tell of')
        joint = self.joints.pop(0)
        known = ACTS[joint.act]()
        require(type(known) is type(act) and vars(known) == vars(act), 'the act is another than %s', joint.act)
        self.take_part(act, joint)
        if joint.error is not None:
            raise Refusal(joint.error)

    def take_part(self, act, joint):
        """The substream's part in an act: its vote is the one it gives, and it changes as the outcome says."""
        require(joint.room == self.room, 'an act of room %d where it stands in %d', joint.room, self.room)
        self.made.append(joint)
        if joint.vote == 'unasked':
            require(joint.outcome != 'done' and joint.decider != self.stream.number, 'unasked of %s', joint.outcome)
            return
        refusal = self.refusal(act)
        if joint.vote.startswith('refuse'):
            require(refusal == joint.vote.split('-')[1], 'a refusal of %s, not of %s', refusal, joint.vote)
            require((joint.decider, joint.error) == (self.stream.number, refusal), 'it decides: %s', joint.outcome)
            return
        require(refusal is None, 'refused with %s', refusal)
        self.change(act, joint)

    def refusal(self, act):
        """The error with which the substream refuses the act."""
        try:
            act.check(self.stream)
        except Refusal as refusal:
            return refusal.name
        return None

    def change(self, act, joint):
        """Where no one refuses the card is asked, and where all cards start the act is made."""
        if joint.outcome.startswith('refused'):
            require(joint.vote == 'yes', 'a card was asked for an act that is refused')
            return
        fails = act.asks(self.stream) and self.stream.consult_plan()
        require(fails == (joint.vote == 'fail'), 'the card says otherwise than %s', joint.vote)
        if fails:
            require(joint.decider == self.stream.number, 'it decides: %s', joint.outcome)
        elif joint.outcome == 'done':
            act.change(self.stream)


class Entry:
    """An entry of a log, cut into its parts."""

    def __init__(self, text):
        """From its text behind the substream and the place."""
        self.text = text
        self.joints = []
        self.kind = text.split(' ')[0]
        if self.kind == 'joint':
            self.joints = [Joint(text[6:])]
        elif self.kind == 'moved':
            self.room = int(text[7:])
        elif self.kind == 'link':
            head, self.reply = text.split(' = ')
            pieces = head.split(' ')
            self.client, self.first, self.second = (int(piece[1:]) for piece in pieces[1:4])
            self.states, self.is_second_linked = tuple(pieces[4:6]), pieces[6] == 'linked'
        else:
            head, *parts = text.split(' + ')
            self.joints = [Joint(part) for part in parts]
            self.event, answer = head.split(' = ')
            self.reply, self.state = answer.rsplit(' ', 1)


def read_logs(text):
    """The entries of each log by substream, and the lines behind the logs."""
    logs, ends = defaultdict(list), []
    for line in text.splitlines():
        if line.startswith('end '):
            ends.append(line)
            continue
        require(not ends, 'an entry behind an end line: %s', line)
        sub, place, entry = line.split(' ', 2)
        log = logs[int(sub[1:])]
        require(int(place) == len(log), 'the place is %s, not %d: %s', place, len(log), line)
        log.append(Entry(entry))
    return dict(logs), ends


# The plan


class Plan:
    """A plan, and what is called by it on each substream."""

    def __init__(self, text, files):
        """From its bytes, which are a plan, and the files beside it."""
        self.files = files
        self.long_max = 2147483647
        self.cards = []
        self.calls = defaultdict(list)
        self.events = defaultdict(list)
        self.saves = []
        self.part = 0
        world = World()
        for raw in text.splitlines():
            self.take(formats.read_line(raw), world)

    def take(self, line, world):
        """Takes in a line."""
        if line.word in ('threads', 'join'):
            self.part += 1
        elif line.word == 'long':
            self.long_max = line.values[0]
            world.step(line)
        elif line.word == 'card':
            self.cards.append(line.values)
            world.step(line)
        elif line.word == 'save':
            self.saves.append(line)
        elif line.word == 'beat':
            frames, count = line.values
            self.events[line.sub] += ['move s%d %d' % (line.sub, frames), 'irq s%d' % line.sub] * count
        else:
            self.take_call(line, world)

    def take_call(self, line, world):
        """Takes in a client's call, an event of a card or a feed; those of the setup happen in order."""
        if line.word == 'feed':
            self.take_feed(line, world)
        elif line.client is not None:
            self.calls[line.client, line.sub].append(line)
        else:
            self.events[line.sub].append(event_text(line))
        if self.part == 0 and line.word != 'feed':
            world.step(line)

    def take_feed(self, line, world):
        """A feed is a give of the file's frames, where a script would make it."""
        try:
            feed(world, self.files, line.sub, line.values[0])
        except Refusal:
            return
        frames = b''.join(world.streams[line.sub].to_give)
        self.events[line.sub].append('give s%d %s' % (line.sub, formats.hex_text(frames)))


def event_text(line):
    """The event of a card as a script has it."""
    values = [formats.hex_text(value) if isinstance(value, bytes) else str(value) for value in line.values]
    return ' '.join([line.word, 's%d' % line.sub, *values])


# One log


class Replay:
    """The replay of one log."""

    def __init__(self, sub, plan):
        """A substream that no client has opened, in its own room."""
        self.plan = plan
        model, direction = plan.cards[sub]
        self.stream = Stream(sub, MODELS[model], direction == 'p', plan.long_max)
        self.group = self.stream.group = LoggedGroup(self.stream)
        self.calls = {client: list(lines) for (client, of), lines in plan.calls.items() if of == sub}
        self.events = list(plan.events.get(sub, []))
        self.waiting = {}
        self.must_move = None
        self.serials = {}

    def entry(self, entry):
        """Plays an entry."""
        if entry.kind == 'moved':
            return self.move(entry.room)
        require(self.must_move is None, 'no move follows')
        self.group.joints, self.group.made = list(entry.joints), []
        if entry.kind == 'joint':
            joint = self.group.joints.pop()
            self.group.take_part(ACTS[joint.act](), joint)
        elif entry.kind == 'link':
            self.link(entry)
        else:
            self.own(entry)
        require(not self.group.joints, 'an act that was not made')
        self.number(self.group.made)

    def number(self, joints):
        """The acts of a room have its next numbers, as long as the substream stands in it; its own room has no others."""
        for joint in joints:
            wanted = self.serials.get(joint.room, 0 if joint.room < LONE_ROOMS else joint.serial)
            require(joint.serial == wanted, 'the act is number %d, not %d', joint.serial, wanted)
            self.serials[joint.room] = wanted + 1

    def move(self, room):
        """Moves to a group's room, or home."""
        number = self.stream.number
        require((room == number) if self.group.linked else room >= LONE_ROOMS, 'a move from room %d to %d', self.group.room, room)
        require(self.must_move in (None, 'home' if room == number else 'group'), 'a move to room %d', room)
        require(self.must_move or room == number, 'a move that nothing asks for')
        self.must_move = None
        self.group.room = room
        if room >= LONE_ROOMS:
            self.serials.pop(room, None)

    def link(self, entry):
        """A link of this substream and another, told alike in both logs."""
        own = self.stream.number
        require(own in (entry.first, entry.second), 'a link of others')
        place = 0 if own == entry.first else 1
        require(entry.states[place] == self.stream.state, 'the state is %s', self.stream.state)
        if own == entry.second:
            require(entry.is_second_linked == self.group.linked, 'linked or free')
        reply = link_reply(entry, self.plan.cards[entry.first][1] == 'p')
        require(entry.reply == formats.reply_text(reply), 'the answer is %s', formats.reply_text(reply))
        if own == entry.first:
            self.take_line(entry.client, 'link', (entry.second,))
        if reply == rules.OK and (own == entry.second or not self.group.linked):
            self.must_move = 'group'

    def take_line(self, client, word, values=None):
        """The next line of a client's calls on this substream."""
        lines = self.calls.get(client, [])
        require(lines, 'no call of c%d is planned', client)
        line = lines.pop(0)
        require(line.word == word and values in (None, line.values), 'the planned call is %s', line.word)
        return line

    def own(self, entry):
        """An event of the substream: what the rules give is what the entry tells."""
        word = entry.event.split(' ')[0]
        if word == 'go':
            text, reply = self.go(int(entry.event.split(' ')[1][1:]))
        elif entry.event.split(' ')[1][:1] == 's':
            text, reply = self.card_event(entry.event)
        else:
            text, reply = self.call(word, int(entry.event.split(' ')[1][1:]))
        told = '%s = %s %s' % (text, reply, self.stream.state)
        require(told == entry.text.split(' + ')[0], 'the rules give: %s', told)

    def card_event(self, text):
        """The next planned event of the card."""
        require(self.events and self.events.pop(0) == text, 'no such event is planned')
        line = formats.read_line(text.encode())
        reply = self.step(line)
        return text, formats.reply_text(reply)

    def step(self, line):
        """A call or an event of a line on the stream."""
        if self.stream.state == CLOSED and line.word != 'open':
            return 'err', 'ENXIO'
        return answer(lambda: self.event(line))

    def event(self, line):
        """What it does, and what it answers."""
        if line.word == 'unlink':
            self.stream.require('Unlink')
            rules.refuse(not self.group.linked, 'EALREADY')
            self.must_move = 'home'
            return rules.OK
        return rules.CALLS[line.word](self.stream, *line.values)

    def call(self, word, client):
        """The next planned call of the client: its text with the bytes that this step moved, and its answer."""
        line = self.take_line(client, word)
        require(client not in self.waiting, 'c%d has a call in progress', client)
        reply = self.step(line)
        if isinstance(reply, (Transfer, DrainWait)):
            self.waiting[client] = self.stream.sleepers[client] = reply
        head = [word, 'c%d' % client, 's%d' % line.sub]
        return ' '.join(head + self.values_text(line, reply)), self.reply_text(reply)

    def values_text(self, line, reply):
        """The values of a call as the log has them: a transfer shows what it moved."""
        values = [str(value) for value in line.values]
        if line.word in ('writei', 'writen', 'store'):
            values[-1] = formats.hex_text(self.written(line, reply))
        if line.word in ('readi', 'readn') and isinstance(reply, Transfer):
            values.append(formats.hex_text(self.moved_by(reply, 0)))
        return values

    def written(self, line, reply):
        """What a write or a store has put."""
        if isinstance(reply, Transfer):
            return self.moved_by(reply, 0)
        if reply[0] != 'frames' or not reply[1]:
            return b''
        planar = line.word == 'writen'
        frames = rules.frames_of(line.values[-1], self.stream.configuration, planar)
        return bytes_of(frames[:reply[1]], self.stream.configuration, planar)

    def moved_by(self, transfer, before):
        """The bytes that a transfer has moved since it had moved so many frames."""
        frames = transfer.frames[before:transfer.moved]
        return bytes_of(frames, self.stream.configuration, transfer.planar) if frames else b''

    def reply_text(self, reply):
        """The answer; none yet where the call sleeps."""
        return 'asleep' if isinstance(reply, (Transfer, DrainWait)) else formats.reply_text(reply)

    def go(self, client):
        """A call goes on."""
        require(client in self.waiting, 'c%d has no call in progress', client)
        call = self.waiting[client]
        before = getattr(call, 'moved', 0)
        reply = answer(call.go_on)
        if not isinstance(reply, (Transfer, DrainWait)):
            del self.waiting[client], self.stream.sleepers[client]
        moved = self.moved_by(call, before) if isinstance(call, Transfer) else b''
        text = 'go c%d%s' % (client, ' ' + moved.hex() if moved else '')
        if isinstance(reply, tuple) and reply[0] == 'read':
            reply = reply[0], reply[1], moved
        return text, self.reply_text(reply)

    def finish(self):
        """Nothing is left to do."""
        require(self.must_move is None, 'no move follows')
        require(not self.waiting, 'a call is still in progress')
        require(not self.events, 'an event of the card is missing: %s', self.events[:1])
        for client, lines in self.calls.items():
            require(not lines, 'a call of c%d is missing', client)


def link_reply(entry, is_playback):
    """The answer of a link, by what its entry tells, the first being a playback substream or not."""
    first, second = entry.states
    if CLOSED in (first, second):
        return 'err', 'ENXIO'
    if entry.first == entry.second:
        return 'err', 'EINVAL'
    error = permit('Link', first, is_playback)
    if error is not None:
        return 'err', error
    if first != second:
        return 'err', 'EBADFD'
    return ('err', 'EALREADY') if entry.is_second_linked else rules.OK


# All logs


def check_acts(logs):
    """Each act has one entry that made it; every member of the room has it, and their votes decide it."""
    makers, parts = defaultdict(list), defaultdict(list)
    for sub, entries in logs.items():
        for entry in entries:
            for joint in entry.joints:
                parts[joint.room, joint.serial].append((sub, joint))
                if entry.kind != 'joint':
                    makers[joint.room, joint.serial].append(sub)
    for act, joints in parts.items():
        require(len(makers[act]) == 1, 'act %d of room %d is made by %s', act[1], act[0], makers[act])
        require(len({joint.key for _, joint in joints}) == 1, 'act %d of room %d is told in two ways', act[1], act[0])
        require(act[0] < LONE_ROOMS or len(joints) >= 2, 'act %d of room %d has one member', act[1], act[0])
        decider, outcome = joints[0][1].decider, joints[0][1].outcome
        votes = {sub: joint.vote for sub, joint in joints}
        if outcome == 'done':
            require(set(votes.values()) == {'yes'}, 'done by %s', votes)
        else:
            wanted = 'fail' if outcome.startswith('failed') else 'refuse-' + outcome.split('-')[2]
            require(votes.get(decider) == wanted, '%s by %s', outcome, votes)


def check_members(logs):
    """Whoever stands in a room when an act is made has its part in it: between two acts of a stay no number is missing."""
    stays = defaultdict(list)
    for sub, entries in logs.items():
        for entry in entries:
            if entry.kind == 'moved':
                stays[sub].append([])
            for joint in entry.joints:
                if joint.room >= LONE_ROOMS:
                    require(stays[sub], 'an act of a group before a move')
                    stays[sub][-1].append((joint.room, joint.serial))
    for sub, rooms in stays.items():
        for acts in rooms:
            numbers = [serial for _, serial in acts]
            require(numbers == list(range(numbers[0], numbers[0] + len(numbers))) if numbers else True,
                    's%d lacks an act between %s', sub, acts)


def check_links(logs):
    """A link stands in the logs of both its substreams, as often in the one as in the other."""
    count = defaultdict(lambda: defaultdict(int))
    for sub, entries in logs.items():
        for entry in entries:
            if entry.kind == 'link' and entry.first != entry.second:
                count[entry.text][sub] += 1
                pair = (entry.first, entry.second)
                require(sub in pair, 'a link of others in the log of s%d', sub)
    for text, of in count.items():
        require(len(of) == 2 and len(set(of.values())) == 1, 'not in both logs: %s', text)


def saved_files(plan, replays, files):
    """The files after the saves of the plan."""
    files = dict(files)
    for line in plan.saves:
        stream = replays[line.sub].stream
        wanted = stream.configuration
        if stream.state == CLOSED or wanted is None or not stream.playback or wanted.format not in BITS_OF_FORMAT:
            continue
        files[line.values[0]] = write_wav(Wav(wanted.format, wanted.channels, wanted.rate, b''.join(stream.taken)))
    return files


def replayed(plan_bytes, files, output):
    """The files that a run of the plan leaves, whose output this is; raises where an entry is out of place."""
    plan = Plan(plan_bytes, files)
    logs, ends = read_logs(output)
    replays = {}
    for sub in range(len(plan.cards)):
        replay = replays[sub] = Replay(sub, plan)
        for place, entry in enumerate(logs.get(sub, [])):
            try:
                replay.entry(entry)
            except OutOfPlace as wrong:
                raise OutOfPlace('s%d %d %s: %s' % (sub, place, entry.text, wrong)) from None
        try:
            replay.finish()
        except OutOfPlace as wrong:
            raise OutOfPlace('s%d at its end: %s' % (sub, wrong)) from None
    check_acts(logs)
    check_members(logs)
    check_links(logs)
    wanted = [formats.end_text(replays[sub].stream).rstrip('\n') for sub in sorted(replays)]
    require(ends == wanted, 'the end lines are %s', wanted)
    return saved_files(plan, replays, files)


def main():
    """The program: its exit status is 1 where an entry is out of place."""
    with open(sys.argv[1], 'rb') as file:
        plan = file.read()
    try:
        replayed(plan, {}, sys.stdin.read())
    except (OutOfPlace, Ends) as wrong:
        print(wrong)
        return 1
    print('each entry is in its place')
    return 0


if __name__ == '__main__':
    sys.exit(main())
