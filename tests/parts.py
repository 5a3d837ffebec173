"""Parts of a test that wait for other programs, each of which is given up after a while: what the scripts with such parts share."""
import signal


class Overdue(Exception):
    """A part took too long. Nothing in a part may take it for something that merely didn't come."""


def results_of(part, bench, seconds):
    """What is wrong in a part. One that takes too long is given up."""
    def give_up(*_):
        raise Overdue(f"it took {seconds} seconds")

    signal.signal(signal.SIGALRM, give_up)
    # and again, if the end of a part waits, too
    signal.setitimer(signal.ITIMER_REAL, seconds, seconds / 10)
    results = []
    try:
        results.extend(part(bench))
    # whatever else is wrong is told as well
    except Exception as why:  # pylint: disable=broad-except
        results.append(f"{type(why).__name__}: {why}")
    finally:
        signal.setitimer(signal.ITIMER_REAL, 0)
    return [result and f"{part.__name__}: {result}" for result in results]
