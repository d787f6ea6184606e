"""An event loop whose time goes on when nothing is left to do, so that minutes take milliseconds."""
import asyncio
import selectors


class _Skipping(selectors.SelectSelector):
    """Does not wait for a time, but makes it come."""

    loop: "SimulatedLoop"

    def select(self, timeout=None):  # type: ignore[no-untyped-def]
        if timeout is None:
            raise RuntimeError("nothing is left to happen")
        if timeout > 0:
            self.loop.now += timeout
        return super().select(0)


class SimulatedLoop(asyncio.SelectorEventLoop):
    def __init__(self) -> None:
        self.now = 0.0
        selector = _Skipping()
        selector.loop = self
        super().__init__(selector)
        self._clock_resolution = 1e-9

    def time(self) -> float:
        return self.now


def run(main):  # type: ignore[no-untyped-def]
    """Runs a coroutine to its end in simulated time."""
    with asyncio.Runner(loop_factory=SimulatedLoop) as runner:
        return runner.run(main)
