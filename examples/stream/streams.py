"""What feeder, workers and readers agree on: the names of streams, and what stands in their entries."""

LINES = "lines"         # the stream of all lines that the parts print, each with its part


def events_of(part):
    """The stream that is the log of a part."""
    return "events:%d" % part


def delivered_of(part):
    """The key of the number of lines that the part has in the stream of lines."""
    return "delivered:%d" % part


def line_of(entry):
    """The line in an entry of any of the streams: the last of its fields."""
    return entry[1][-1]
