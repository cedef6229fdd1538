"""Questions about a Stellar quorum configuration, answered by the proved analyser.

    network = Quorums(open("network.json", "rb").read())
    found = network.intersect(faulty=["GAAA1"])
    found.yes                                   # True or False, or None for unknown
    found["first"], found["second"]             # two disjoint quorums, after a no
    network.check(found.certificate).kind       # "pair"; raises Refused if it does not hold

The package proves nothing: each answer is the proved program's, with its certificate.
"""

from .asking import Refused, TooLarge
from .binding import answer
from .commands import trial
from .network import Quorums
from .replies import Answer
from .worker import Ended, Lost, Stop

__all__ = ["Answer", "Ended", "Lost", "Quorums", "Refused", "Stop", "TooLarge", "answer", "trial"]
