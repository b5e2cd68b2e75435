#!/usr/bin/env python3
"""Draws a script of `pcm run` and its transcript as a picture.

    python3 draw.py underrun.pcm underrun.out > underrun.svg

One row a substream, one column a line of the script. The coloured band above each row is the state; below it stand the
pointers: the hardware pointer, the application pointer, where the card really is, and how far the client may go. Marks
show underruns and overruns, clients that sleep and are woken, errors, and what the card took.
"""

import argparse
import os
import sys
from xml.sax.saxutils import escape

from follow import Follower

COLOURS = {'CLOSED': '#e4e4e4', 'OPEN': '#cfd8dc', 'SETUP': '#b3cde3', 'PREPARED': '#ffe9a8', 'RUNNING': '#b7e1b0',
           'XRUN': '#f09a92', 'DRAINING': '#cdbcec', 'PAUSED': '#f7d0a0', 'SUSPENDED': '#bdbdbd', 'DISCONNECTED': '#8f8f8f'}
HARDWARE, APPLICATION, CARD, LIMIT = '#1f4e9c', '#c2303f', '#6f9be0', '#9a9a9a'
LEFT, RIGHT, TOP, BOTTOM = 128, 100, 128, 230
BAND, PLOT, MARKS, GAP = 20, 130, 74, 26
ROW = BAND + PLOT + MARKS + GAP


class Canvas:
    """Elements of a picture."""

    def __init__(self, width, height):
        """The size is in points."""
        self.width = width
        self.height = height
        self.parts = []

    def box(self, x, y, width, height, fill, extra=''):
        """A filled box."""
        self.parts.append('<rect x="%.1f" y="%.1f" width="%.1f" height="%.1f" fill="%s" %s/>'
                          % (x, y, width, height, fill, extra))

    def line(self, points, colour, width=1.0, dashes=''):
        """A line through points."""
        text = ' '.join('%.1f,%.1f' % point for point in points)
        dash = ' stroke-dasharray="%s"' % dashes if dashes else ''
        self.parts.append('<polyline points="%s" fill="none" stroke="%s" stroke-width="%.1f"%s/>'
                          % (text, colour, width, dash))

    def circle(self, x, y, radius, fill, stroke):
        """A circle."""
        self.parts.append('<circle cx="%.1f" cy="%.1f" r="%.1f" fill="%s" stroke="%s"/>' % (x, y, radius, fill, stroke))

    def text(self, x, y, text, size=11, anchor='start', colour='#222', turn=0, weight='normal'):
        """A text; it may be turned by degrees."""
        turned = ' transform="rotate(%d %.1f %.1f)"' % (turn, x, y) if turn else ''
        self.parts.append('<text x="%.1f" y="%.1f" font-size="%d" text-anchor="%s" fill="%s" font-weight="%s"%s>%s</text>'
                          % (x, y, size, anchor, colour, weight, turned, escape(text)))

    def svg(self):
        """The whole picture."""
        head = ('<svg xmlns="http://www.w3.org/2000/svg" width="%d" height="%d" viewBox="0 0 %d %d" '
                'font-family="DejaVu Sans Mono, monospace">' % (self.width, self.height, self.width, self.height))
        return '\n'.join([head, '<rect width="100%" height="100%" fill="white"/>'] + self.parts + ['</svg>\n'])


class Picture:
    """A picture of everything that was followed."""

    def __init__(self, follower, title):
        """The title stands above."""
        self.follower = follower
        self.title = title
        self.tracks = [track for _, track in sorted(follower.tracks.items(), key=lambda item: int(item[0][1:]))]
        columns = max(1, len(follower.lines))
        self.step = 34 if columns <= 30 else 27 if columns <= 60 else 20
        width = max(LEFT + columns * self.step + RIGHT, 1060)
        self.canvas = Canvas(width, TOP + len(self.tracks) * ROW + BOTTOM)

    def x(self, column):
        """Where a column begins."""
        return LEFT + column * self.step

    def draw(self):
        """The picture's text."""
        self.canvas.text(LEFT, 28, self.title, 16, weight='bold')
        self.draw_legend()
        for place, track in enumerate(self.tracks):
            Row(self, track, TOP + place * ROW).draw()
        self.draw_lines()
        return self.canvas.svg()

    def draw_legend(self):
        """Colours and marks with their meaning."""
        canvas, x = self.canvas, LEFT
        for state, colour in COLOURS.items():
            canvas.box(x, 42, 12, 12, colour, 'stroke="#888"')
            canvas.text(x + 16, 52, state, 10)
            x += 30 + 6.3 * len(state)
        x = LEFT
        for name, colour, width, dashes in (('hw_ptr, as reported', HARDWARE, 2.4, ''), ('appl_ptr', APPLICATION, 2.4, ''),
                                            ('the card', CARD, 1.2, '2 2'), ('limit of writes', LIMIT, 1.0, '6 3')):
            canvas.line([(x, 72), (x + 24, 72)], colour, width, dashes)
            canvas.text(x + 30, 76, name, 10)
            x += 46 + 6.3 * len(name)
        canvas.circle(x + 4, 72, 3, 'white', HARDWARE)
        canvas.text(x + 12, 76, 'pointers that an answer shows', 10)
        x = LEFT
        for sign, name, colour in (('✖', 'underrun or overrun', '#c00000'), ('z', 'falls or stays asleep', '#6a3fa0'),
                                   ('▲', 'woken', '#6a3fa0'), ('!', 'a fault is planned', '#b06000'),
                                   ('▮', 'the card moves: frames, and the bytes it took', HARDWARE)):
            canvas.text(x, 98, sign, 12, colour=colour, weight='bold')
            canvas.text(x + 14, 98, name, 10)
            x += 32 + 6.3 * len(name)
        canvas.text(x, 98, 'EPIPE', 9, colour='#a02020')
        canvas.text(x + 36, 98, 'refused', 10)

    def draw_lines(self):
        """The script's lines with their numbers, below the last row."""
        bottom = TOP + len(self.tracks) * ROW - GAP + 4
        for column, (number, text) in enumerate(self.follower.lines):
            x = self.x(column) + self.step / 2
            self.canvas.text(x, bottom + 10, str(number), 9, 'middle', '#555')
            shown = text if len(text) <= 40 else text[:38] + '..'
            self.canvas.text(x - 2, bottom + 22, shown, 9, turn=60)


class Row:
    """The row of one substream."""

    def __init__(self, picture, track, top):
        """The row begins at this height."""
        self.picture = picture
        self.canvas = picture.canvas
        self.track = track
        self.top = top
        self.columns = [sample[0] for sample in track.samples]
        positions = [value for sample in track.samples if sample[2]
                     for value in sample[4:] + (sample[4] + sample[2] if track.playback else sample[4],)]
        self.least = min(positions, default=0)
        self.greatest = max(max(positions, default=1), self.least + 4)

    def y(self, position):
        """The height of a position."""
        share = (position - self.least) / (self.greatest - self.least)
        return self.top + BAND + 8 + (PLOT - 16) * (1 - share)

    def draw(self):
        """Everything of the row."""
        self.draw_label()
        self.draw_grid()
        self.draw_states()
        self.draw_pointers()
        self.draw_marks()

    def draw_label(self):
        """Name, direction and sizes."""
        track = self.track
        sizes = [sample[2:4] for sample in track.samples if sample[2]]
        lines = [track.name, 'playback' if track.playback else 'capture']
        if sizes:
            lines += ['buffer %d' % sizes[-1][0], 'boundary', '  %d' % sizes[-1][1]]
        for place, text in enumerate(lines):
            self.canvas.text(6, self.top + 14 + 15 * place, text, 14 if place == 0 else 10,
                             weight='bold' if place == 0 else 'normal')

    def draw_grid(self):
        """Thin lines between columns, and the positions at the side."""
        canvas, picture = self.canvas, self.picture
        right = picture.x(len(picture.follower.lines))
        canvas.box(LEFT, self.top, right - LEFT, BAND + PLOT + MARKS, 'none', 'stroke="#ccc"')
        for column in range(len(picture.follower.lines)):
            canvas.line([(picture.x(column), self.top), (picture.x(column), self.top + BAND + PLOT + MARKS)], '#eee')
        boundary = max((sample[3] for sample in self.track.samples), default=0)
        if not boundary:
            return
        for position in self.ticks():
            canvas.text(LEFT - 6, self.y(position) + 3, str(position % boundary), 9, 'end', '#555')
            canvas.line([(LEFT - 4, self.y(position)), (LEFT, self.y(position))], '#555')
        first = -(-self.least // boundary)
        for round_number in range(first, self.greatest // boundary + 1):
            if round_number:
                y = self.y(round_number * boundary)
                canvas.line([(LEFT, y), (right, y)], '#b06000', 1.0, '3 3')
                canvas.text(LEFT + 4, y - 3, 'the boundary: shown as 0', 9, 'start', '#b06000')

    def ticks(self):
        """Positions with a number at the side."""
        step = 1
        while (self.greatest - self.least) / step > 8:
            step *= 2
        return range(-(-self.least // step) * step, self.greatest + 1, step)

    def draw_states(self):
        """The band of states."""
        begin = 0
        samples = self.track.samples
        for i in range(1, len(samples) + 1):
            if i == len(samples) or samples[i][1] != samples[begin][1]:
                state = samples[begin][1]
                left = self.picture.x(samples[begin][0])
                width = self.picture.x(samples[i - 1][0] + 1) - left
                self.canvas.box(left, self.top, width, BAND, COLOURS[state], 'stroke="#888"')
                self.canvas.box(left, self.top + BAND, width, PLOT, COLOURS[state], 'fill-opacity="0.22"')
                size = 10 if width >= 7 * len(state) else 7
                if width >= 4.6 * len(state):
                    self.canvas.text(left + width / 2, self.top + 14, state, size, 'middle')
                begin = i

    def draw_pointers(self):
        """The pointers as steps."""
        playback = self.track.playback
        if playback:
            self.steps(lambda sample: sample[4] + sample[2], LIMIT, 1.0, '6 3')
        self.steps(lambda sample: sample[6], CARD, 1.2, '2 2')
        self.steps(lambda sample: sample[4], HARDWARE, 2.4, '')
        self.steps(lambda sample: sample[5], APPLICATION, 2.4, '')

    def steps(self, value, colour, width, dashes):
        """One pointer; a line for each stretch with a configuration."""
        points = []
        for sample in self.track.samples + [None]:
            if sample is not None and sample[2]:
                y = self.y(value(sample))
                points += [(self.picture.x(sample[0]), y), (self.picture.x(sample[0] + 1), y)]
            elif points:
                self.canvas.line(points, colour, width, dashes)
                points = []

    def draw_marks(self):
        """What happened in each column."""
        samples = {sample[0]: sample for sample in self.track.samples}
        base = self.top + BAND + PLOT
        for column, kind, text, data in self.track.marks:
            x = self.picture.x(column) + self.picture.step / 2
            if kind == 'pointers':
                self.canvas.circle(x, self.y(samples[column][4]), 3, 'white', HARDWARE)
                self.canvas.circle(x, self.y(samples[column][5]), 3, 'white', APPLICATION)
            elif kind == 'xrun':
                self.canvas.text(x, base + 14, '✖', 15, 'middle', '#c00000', weight='bold')
            elif kind == 'sleep':
                self.canvas.text(x, base + 13, 'z', 12, 'middle', '#6a3fa0', weight='bold')
                self.canvas.text(x, base + 24, text, 8, 'middle', '#6a3fa0')
            elif kind == 'wake':
                self.canvas.text(x, base + 36, '▲', 11, 'middle', '#6a3fa0')
                self.canvas.text(x, base + 46, text, 8, 'middle', '#6a3fa0')
            elif kind == 'fault':
                self.canvas.text(x, base + 14, '!', 14, 'middle', '#b06000', weight='bold')
            elif kind == 'error':
                self.canvas.text(x + 3, base + 4, text, 9, colour='#a02020', turn=90)
            elif kind == 'move':
                self.draw_movement(x, base, text, data)

    def draw_movement(self, x, base, count, data):
        """A movement: how many frames, and the bytes that the card took."""
        self.canvas.text(x, base + 13, '▮' + count, 10, 'middle', HARDWARE, weight='bold')
        shown = data if len(data) <= 10 else data[:8] + '..'
        self.canvas.text(x - 3, base + 18, shown, 8, colour=HARDWARE, turn=90)


def read(path):
    """The text of a file."""
    with open(path, encoding='latin-1') as file:
        return file.read()


def main():
    """Writes the picture to standard output, and what does not fit together to standard error."""
    parser = argparse.ArgumentParser(description=__doc__, formatter_class=argparse.RawDescriptionHelpFormatter)
    parser.add_argument('script')
    parser.add_argument('transcript')
    arguments = parser.parse_args()
    follower = Follower(read(arguments.script), read(arguments.transcript))
    for difference in follower.differences:
        sys.stderr.write('draw.py: %s\n' % difference)
    sys.stdout.buffer.write(Picture(follower, os.path.basename(arguments.script)).draw().encode())
    return 0


if __name__ == '__main__':
    sys.exit(main())
