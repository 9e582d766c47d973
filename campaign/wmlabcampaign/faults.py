"""What ends a campaign, each with its exit status."""

ALLOWED, BROKEN, REFUSED, FAILED, STOPPED = 0, 1, 2, 3, 130


class Fault(Exception):
    """Ends the command with one line on standard error."""

    status = FAILED


class WrongWords(Fault):
    """The command line, or a folder that it names, is not one for a campaign."""

    status = REFUSED
