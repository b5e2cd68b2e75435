"""Which difference explains which line: by leaving differences out, of whole scripts or of single steps."""

import copy
import itertools
from typing import NamedTuple

import differences
import formats
import kernel
from tables import MODELS

SEVERAL = 'several, each of them enough'
MOST_TOGETHER = 3


class Account(NamedTuple):
    """Of one script: how many lines are equal, the names behind each explained line, and the lines that nothing explains."""
    equal: int
    explained: dict
    unexplained: list


def line_at(lines, place):
    """A line, or None behind the last."""
    return lines[place] if place < len(lines) else None


def account(lines, profile, model, told, on):
    """The account of a script: the profile's transcript, that of the model with all differences, and the kernel's."""
    equal, differing, unexplained = 0, [], []
    for place in range(max(len(profile), len(told))):
        if line_at(profile, place) == line_at(told, place):
            equal += 1
        elif line_at(model.lines, place) == line_at(told, place):
            differing.append(place)
        else:
            unexplained.append(place)
    return Account(equal, causes(lines, model, differing, on) if differing else {}, unexplained)


def needed(lines, model, on):
    """A least set of differences that gives the same transcript."""
    keep = set(on & model.met)
    for name in sorted(keep):
        if kernel.play(lines, keep - {name}).lines == model.lines:
            keep.discard(name)
    return frozenset(keep)


def causes(lines, model, places, on):
    """For each of these lines the differences without which it would be another."""
    keep = needed(lines, model, on)
    without = {name: kernel.play(lines, keep - {name}).lines for name in sorted(keep)}
    return {place: tuple(name for name, other in without.items()
                         if line_at(other, place) != line_at(model.lines, place)) or (SEVERAL,)
            for place in places}


# Single steps. A line behind the first that differs may differ as its mere consequence; so each line is asked anew from the
# state in which the kernel is


def kept(world):
    """What a step leaves, but for who is asleep. The ring is left out where there is silence, whose rules differ."""
    left = []
    for _, stream in sorted(world.streams.items()):
        silent = stream.software is not None and stream.software.silence_size > 0
        frames = stream.puts.slots if stream.puts is not None and not silent else None
        left.append((stream.state, stream.pointers_shown(), stream.card_runs, list(stream.plan), stream.moved,
                     stream.mappings, stream.configuration, stream.software, frames,
                     [member.number for member in stream.group.members]))
    return left


def one_step(world, line, on):
    """What a line tells and leaves from this state, under these differences; and which of them it met."""
    memo = {id(model): model for model in MODELS.values()}
    other = copy.deepcopy(world, memo)
    other.on, other.met = frozenset(on), set()
    for call in other.calls.values():
        if call.asleep and not call.may_wait():
            # The profile has woken it long ago, unless the difference is on by which it sleeps on.
            call.asleep = call.cause in other.on
            other.met.add(call.cause)
    try:
        told = other.step(line)
    except differences.Hang:
        return 'hang', frozenset(other.met & other.on)
    return (formats.told_text(0, told), kept(other)), frozenset(other.met & other.on)


def names_of_step(world, line, on):
    """None where the profile makes the same step as the kernel, else the fewest differences that make it."""
    want, met = one_step(world, line, on)
    if one_step(world, line, frozenset())[0] == want:
        return None
    for size in range(1, MOST_TOGETHER + 1):
        for names in itertools.combinations(sorted(met), size):
            if one_step(world, line, names)[0] == want:
                return names
    return ('more than %d' % MOST_TOGETHER,) * (MOST_TOGETHER + 1)


def steps(lines, on):
    """For each line of a script, None or the differences behind its step."""
    world, found = kernel.World(on), []
    for raw in lines:
        line = kernel.line_of(raw)
        if line is None or line.word == 'version':
            continue
        found.append(names_of_step(world, line, on))
        try:
            world.step(line)
        except differences.Hang:
            break
        if world.cut:
            break
    return found
