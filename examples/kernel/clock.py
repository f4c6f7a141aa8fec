"""clock: moments in milliseconds, those of frames too, by the clock that the model is given."""
import time


def now():
    """Returns this moment."""
    return time.clock_gettime_ns(time.CLOCK_MONOTONIC) // 1_000_000


def moment_of(stamp):
    """Returns the moment of a time since 1970 in nanoseconds, with which the kernel stamps the frames that arrive."""
    ahead = time.clock_gettime_ns(time.CLOCK_REALTIME) - time.clock_gettime_ns(time.CLOCK_MONOTONIC)
    return (stamp - ahead) // 1_000_000
