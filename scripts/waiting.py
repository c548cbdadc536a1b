"""Waiting for a limited time, so that who waits can be cancelled at any moment."""
import asyncio


async def within(seconds, what):
    """What comes of something that is awaited, or asyncio.TimeoutError where it takes longer. The wait_for of Python 3.11 and earlier ones isn't used:
    it drops a cancel that comes as what is awaited ends, and who is cancelled so goes on."""
    task = asyncio.ensure_future(what)
    # what is awaited by none any more may fail
    task.add_done_callback(lambda it: it.cancelled() or it.exception())
    try:
        await asyncio.wait([task], timeout=seconds)
        if not task.done():
            raise asyncio.TimeoutError
        return task.result()
    finally:
        task.cancel()
