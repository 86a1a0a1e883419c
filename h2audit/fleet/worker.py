"""What a process of the pool does: one task after the other, until nobody asks any more."""

from multiprocessing.connection import Connection

from h2audit.fleet import large, stretch, tasks

MODULES = {module.__name__: module for module in (large, stretch, tasks)}
Said = tuple[object, Exception | None]


def serve(descriptor: int) -> None:
    """Answers the tasks that come over a connection, each with what it gives or raises."""
    connection = Connection(descriptor)
    while True:
        try:
            module, work, words = connection.recv()
        except EOFError:
            return
        try:
            said: Said = getattr(MODULES[module], work)(*words), None
        except Exception as why:  # whatever it is, the dispatcher has to hear of it
            said = None, type(why)(*why.args)
        connection.send(said)
