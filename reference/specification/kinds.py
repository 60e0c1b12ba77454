"""Why a difference is one: the kinds, each with the input of its entry in docs/DIFFERENCES.md.

A kind is a name, the smallest input, and a predicate of a difference. The first
kind whose predicate holds is taken, so the ones before it need not be ruled out
again. `classify` answers None where none holds: that is a new kind, or a bug
here.
"""

from kinds_both import KINDS_BOTH
from kinds_ours import KINDS_OURS
from kinds_theirs import KINDS_THEIRS


def classify(difference):
    """The kind of a difference, or None."""
    if difference.ours and difference.theirs:
        kinds = KINDS_BOTH
    else:
        kinds = KINDS_OURS if difference.ours else KINDS_THEIRS
    return next((kind for kind in kinds if kind.holds(difference)), None)


ALL = [*KINDS_BOTH, *KINDS_OURS, *KINDS_THEIRS]
