"""Which files have something to read, or room to write, told straight to who has them."""
import select
import selectors


class Selector(selectors.EpollSelector):
    """A selector for asyncio. A file that is watched here is told of as it is found to be ready, in the same wake. What asyncio does for each file and wake
    would take longer than what there is to do."""

    def __init__(self):
        super().__init__()
        self.epoll, self.watched = select.epoll(), {}
        # what is done once all that came in together is handled; it says whether there was anything to do
        self.end_turn = lambda: False
        # where one of asyncio's own is ready, this selector's first one is
        self.others = self.fileno()
        self.epoll.register(self.others, select.EPOLLIN)

    def watch(self, fd, events, on_events):
        """Has it told what of these events there is, of a file that isn't watched."""
        self.epoll.register(fd, events)
        self.watched[fd] = on_events

    def watch_for(self, fd, events):
        """From now on these events are told."""
        self.epoll.modify(fd, events)

    def forget(self, fd):
        self.epoll.unregister(fd)
        del self.watched[fd]

    def select(self, timeout=None):
        ready = []
        # what asyncio has called since it chose the timeout is handled, too
        for fd, events in self.epoll.poll(0 if self.end_turn() else timeout):
            if fd == self.others:
                ready = super().select(0)
            elif fd in self.watched:
                self.watched[fd](events)
        self.end_turn()
        return ready

    def close(self):
        self.epoll.close()
        super().close()
