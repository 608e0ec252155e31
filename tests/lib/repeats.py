"""When a request is sent again that nobody acknowledges (RFC 7252, section 4.2), and whether that was so."""

import time

# RFC 7252, section 4.8: the first wait in seconds, least and most, and how often a request is sent again
LEAST_WAIT, MOST_WAIT, MAX_RETRANSMIT = 2.0, 3.0, 4
# until a request is sent for the last time, and until it is given up: each wait is twice the one before (section 4.2)
LEAST_SPAN, MOST_SPAN = (it * (2**MAX_RETRANSMIT - 1) for it in (LEAST_WAIT, MOST_WAIT))
LEAST_TIME, MOST_TIME = (it * (2 ** (MAX_RETRANSMIT + 1) - 1) for it in (LEAST_WAIT, MOST_WAIT))
# how much earlier or later something may be seen here, on a busy machine
EARLIER, LATER = 0.05, 1.0
# 5.04: nobody has answered
GATEWAY_TIMEOUT = 0xA4


def repeats_of(device, first, begun, count):
    """When the next datagrams came, so many, in seconds since the first, and what else came than that."""
    moments, others = [], []
    while len(moments) < count:
        text = device.hear(MOST_WAIT * 2 ** (len(moments) + len(others)) + LATER)
        if not isinstance(text, bytes):
            break
        moments.append(time.monotonic() - begun)
        others += [text.hex()] if text != first else []
    return moments, others


def are_in_time(moments):
    """Whether repeats came when RFC 7252, section 4.2, has them: each wait is twice the one before."""
    waits = [end - begin for begin, end in zip((0.0, *moments), moments)]
    bounds = [(LEAST_WAIT * 2**it, MOST_WAIT * 2**it) for it in range(len(waits))]
    return all(least - EARLIER <= wait <= most + LATER for wait, (least, most) in zip(waits, bounds))
