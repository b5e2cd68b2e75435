"""Parameter spaces: the least box that holds every configuration that a model allows in a space."""

from tables import (ACCESS_NUMBERS, FORMAT_NUMBERS, GREATEST_BUFFER, GREATEST_PERIODS, LEAST_BUFFER, LEAST_PERIODS, MODELS,
                    SAMPLE_BYTES, Span)


def common(*spans):
    """The numbers that lie in all these spans."""
    return Span(max(span.least for span in spans), min(span.greatest for span in spans))


def hull(spans):
    """The least span that holds all these."""
    return Span(min(span.least for span in spans), max(span.greatest for span in spans))


def in_mask(mask, numbers):
    """The names whose numbers have their bits in the mask."""
    return [name for name, number in numbers.items() if mask >> number & 1]


def mask_of(names, numbers):
    """The mask with the bits of these names."""
    return sum(1 << numbers[name] for name in set(names))


def boxes(model, space):
    """Format, channels, rates, periods in frames, count of periods and buffers, for each choice of the discrete ones."""
    _, formats, channels, _, _, periods, _ = space
    for sample_format in in_mask(formats, FORMAT_NUMBERS):
        for channel_count in range(1, 9):
            for period_count in range(LEAST_PERIODS, GREATEST_PERIODS + 1):
                if (sample_format in model.formats and channels.holds(channel_count)
                        and model.channels.holds(channel_count) and periods.holds(period_count)):
                    box = box_of(model, space, sample_format, channel_count, period_count)
                    if box is not None:
                        yield box


def box_of(model, space, sample_format, channel_count, period_count):
    """The box for one choice of format, channels and count of periods; None where it holds nothing."""
    _, _, _, rate, period, _, buffer = space
    top_rate = model.wide_rate if channel_count > 2 else model.rate.greatest
    rates = common(rate, model.rate, Span(0, top_rate))
    room = model.buffer_bytes // (channel_count * SAMPLE_BYTES[sample_format])
    buffers = common(buffer, Span(LEAST_BUFFER, GREATEST_BUFFER), Span(0, room))
    sizes = common(period, model.period, Span(-(-buffers.least // period_count), buffers.greatest // period_count))
    if rates.least > rates.greatest or sizes.least > sizes.greatest:
        return None
    return (sample_format, Span(channel_count, channel_count), rates, sizes, Span(period_count, period_count),
            Span(sizes.least * period_count, sizes.greatest * period_count))


def refine(model_name, numbers):
    """The twelve numbers of the refined space; None where it holds nothing."""
    spans = [Span(*numbers[i:i + 2]) for i in range(2, 12, 2)]
    space = (numbers[0], numbers[1], *spans)
    found = list(boxes(MODELS[model_name], space))
    accesses = in_mask(numbers[0], ACCESS_NUMBERS)
    if not found or not accesses:
        return None
    answer = [mask_of(accesses, ACCESS_NUMBERS), mask_of([box[0] for box in found], FORMAT_NUMBERS)]
    for place in range(1, 6):
        answer += hull([box[place] for box in found])
    return answer


def refined_text(model_name, numbers):
    """The answer to a line of the command refine."""
    answer = refine(model_name, numbers)
    if answer is None:
        return 'err EINVAL 22\n'
    return 'space %s %s\n' % (model_name, ' '.join(str(number) for number in answer))
