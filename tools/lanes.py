"""How many processes of the prover prove a crate, where crates are proved side by side."""


def jobs_for(leads, lanes, used, waiting):
    """Returns how many jobs a crate may begin with, or 0 where it has to wait: of so many processors, of which so many have work, where so many wait.

    `leads` says that no crate at work or waiting has a longer chain of others behind it: all of them wait for this one in the end. So it gets all
    processors but one, and one more than there are. Any other gets its share of those that are idle, and the one that leads too on one or two.
    """
    if leads and lanes > 2:
        return max(0, min(4, lanes - 1, lanes + 1 - used))
    return 0 if used >= lanes else max(1, min(4, (lanes - used) // waiting))
