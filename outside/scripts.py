"""Random scripts for `driver.txt`: by turns a schedule of all replicas, and one replica in a storm of messages."""
from schedules import Schedule
from storms import Storm


def script(seed):
    """The lines of a script, and those that are to be printed."""
    played = Schedule(seed).play() if seed % 2 else Storm(seed).play()
    return played.lines, played.wanted
