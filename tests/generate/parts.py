"""Random scripts in parts, each to be played in a run of its own."""

import re

from .scripts import random_script


def is_whole(request):
    """Whether what follows a request is read as another one."""
    first = request.split(None, 1)[:1]
    return re.search(rb"\n\.\r?\n\Z" if first in ([b"in"], [b"op"]) else rb"\n\Z", request) is not None


def parts_of(chance):
    """The requests of a random script in up to three parts. A last one that is cut off asks nothing, and is left out."""
    requests = [it for it in random_script(chance) if is_whole(it)]
    cuts = sorted(chance.below(len(requests) + 1) for _ in range(2))
    return [b"".join(part) for part in (requests[: cuts[0]], requests[cuts[0] : cuts[1]], requests[cuts[1] :])]
