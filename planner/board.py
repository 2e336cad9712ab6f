"""A page on 127.0.0.1 with the map of an instance, for a browser: open and close sites, change leases, capacities and demands, solve, and
compare. It prints its address, which has a token that others can't guess, and goes on until it is interrupted."""
import argparse
import os
import secrets
import signal
import sys
from collections.abc import Callable

from . import board_outline
from .board_serve import Server
from .board_work import Board
from .cells import Refusal, run
from .session import Session


def words_of(words: list[str] | None) -> argparse.Namespace:
    about = " ".join(__doc__.split())
    top = argparse.ArgumentParser(prog="dualoc board", description=about)
    top.add_argument("instance", help="the instance in the suite's own form")
    top.add_argument("names", help="the file of names that came with it")
    top.add_argument("store", nargs="?", help="the file in which scenarios are kept; it is made when the first one is")
    top.add_argument("--background", metavar="FILE", help="an outline to draw behind the map, as GeoJSON")
    top.add_argument("--title", help="what stands above the map; the instance's name else")
    top.add_argument("--unit", help="the unit of the coordinates, as km")
    top.add_argument("--port", type=int, default=0, help="the port; any free one else")
    return top.parse_args(words)


def outline_of(path: str | None) -> Callable | None:
    """What reads the outline once the map's projection is known."""
    return path and (lambda place: board_outline.read(path, place))


def board_of(args: argparse.Namespace, session: Session) -> Board:
    title = args.title or os.path.splitext(os.path.basename(args.instance))[0]
    unit = session.names().rule.unit if args.unit is None else args.unit
    return Board(session, title, unit, outline_of(args.background))


def serve(board: Board, port: int) -> None:
    """Serves until a signal ends it."""
    server = Server(board, secrets.token_urlsafe(24), port)
    try:
        print(f"http://127.0.0.1:{server.server_port}/{server.token}/", flush=True)
        server.serve_forever(0.2)
    except KeyboardInterrupt:
        pass
    finally:
        server.is_ended = True
        server.server_close()


def main(words: list[str] | None = None) -> None:
    args = words_of(words)
    if not 0 <= args.port <= 65535:
        raise Refusal(f"--port {args.port}: a number from 0 to 65535 is due")
    for number in signal.SIGTERM, signal.SIGHUP:
        signal.signal(number, lambda sent, _: sys.exit(128 + sent))
    session = Session("own", args.instance, names=args.names, desk=args.store, say=lambda text: print(text, file=sys.stderr, flush=True))
    ended = session.end
    try:
        board = board_of(args, session)
        ended = board.end
        serve(board, args.port)
    finally:
        ended()


if __name__ == "__main__":
    run(main)
