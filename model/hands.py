"""Hands that share a session: whose each entry of the history is, and what a hand may not ask for."""
from .edits import Reset, is_edit
from .session import Edited, Jumped, Retracted

NOBODY = None
# How many entries back one's own last edit is looked for.
RETRACTED_ENTRIES = 4096


class Owners:
    """Whose each entry of a session's history is. Edits are their hand's, and frames and ends of notes nobody's. Of a
    session that is not shared all edits are the one hand's."""

    def __init__(self, session, shared):
        self.session, self.shared, self.owners = session, shared, []

    def follow(self, hand, command, answer):
        """A command of a hand, or of nobody, was done, and the history is what it is now."""
        if isinstance(answer, Retracted):       # the owner of the entry goes with it
            del self.owners[answer.moment]
        elif isinstance(answer, Jumped):
            del self.owners[answer.moment:]
        elif isinstance(answer, Edited):
            self.owners.append(NOBODY if command.name == 'hush' else hand)
        self.owners += [NOBODY] * (self.session.moments - len(self.owners))

    def own(self, hand):
        """The moment of this hand's last edit that can be taken back, or none. A reset is about time, and is left."""
        history = self.session.history
        for moment in reversed(range(max(0, len(history) - RETRACTED_ENTRIES), len(history))):
            is_own = not self.shared or self.owners[moment] == hand
            if is_own and is_edit(history[moment]) and not isinstance(history[moment], Reset):
                if not self.session.size_in_use(moment):
                    return moment
        return None

    def in_the_way(self, hand):
        """The other hand whose edit an undo of this one would take back, or nobody."""
        edits = [moment for moment, entry in enumerate(self.session.history) if is_edit(entry)]
        owner = self.owners[edits[-1]] if self.shared and edits else NOBODY
        return NOBODY if owner == hand else owner


def is_first_hands(wish, full, all_views):
    """What is for the first hand alone: time, size, files, the end, and the picture where there is one."""
    if wish.name == 'Do':
        command = wish.values[0].name
        return command in ('rewind', 'reset', 'resize') or command == 'frame' and full
    return (wish.name in ('Toggle', 'Save', 'Quit', 'Slower', 'Faster')
            or wish.name in ('Redraw', 'Screen') and not all_views)
