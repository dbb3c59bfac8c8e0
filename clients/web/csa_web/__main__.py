"""The gateway's command line: python3 -m csa_web --help."""

from __future__ import annotations

import argparse
import resource
import sys
from collections.abc import Callable
from pathlib import Path

from csa_client import CsaClient
from csa_client.image import Image
from flask import Flask

from .feed import Feed
from .gateway import Kept, create_app
from .search import Sessions

EXAMPLE = """\
Example, with the image and the server of csa's README:

  python3 -m csa_web --feed examples/base --image base.csa --server 7077 --port 8077

A search occupies one of the server's workers while it runs; between places of several stops it asks once if the server has --sets, and else each pair of them. Names come from the feed's folder. Legs come from the server if it was
started with --legs, otherwise from the image, if it is the one from which the server answers. If the feed or the image is replaced, it is
read again. The page is served by waitress if that is installed, otherwise by Flask's own server, which isn't meant for a network.
"""


def no_image() -> None:
    """Without an image there are no legs, unless the server sends them."""


def bound(app: Flask, host: str, port: int, sessions: int) -> tuple[Callable[[], None], int]:
    """What serves the page, once it listens, and the port at which it does."""
    try:
        from waitress import create_server
    except ImportError:
        from werkzeug.serving import make_server

        plain = make_server(host, port, app, threaded=True)
        return plain.serve_forever, plain.port
    # as many connections as the system allows, up to some 2,000
    _, hard = resource.getrlimit(resource.RLIMIT_NOFILE)
    resource.setrlimit(resource.RLIMIT_NOFILE, (min(hard, 4096) if hard != resource.RLIM_INFINITY else 4096, hard))
    # an address of 1 MB gets as far as the gateway, which refuses it like any other that is too long; more than 1,000 connections need poll
    server = create_server(
        app,
        host=host,
        port=port,
        ident="csa_web",
        threads=sessions + 4,
        connection_limit=2000,
        asyncore_use_poll=True,
        max_request_header_size=1 << 21,
    )
    return server.run, getattr(server, "effective_port", port)


def main() -> int:
    parser = argparse.ArgumentParser("csa_web", description="A web page in front of a csa server.", epilog=EXAMPLE)
    parser.formatter_class = argparse.RawDescriptionHelpFormatter
    parser.add_argument("--feed", type=Path, required=True, metavar="FOLDER", help="the unpacked feed")
    parser.add_argument("--image", type=Path, metavar="FILE", help="the image from which the server answers, for the legs if the server has no --legs")
    parser.add_argument("--server", type=int, default=7077, metavar="PORT", help="the csa server's port on this machine (7077)")
    parser.add_argument("--sessions", type=int, default=2, help="the most sessions that are open at once (2)")
    parser.add_argument("--timeout", type=float, default=5.0, help="how many seconds to wait for the server (5)")
    parser.add_argument("--host", default="127.0.0.1", help="the address to listen on (127.0.0.1)")
    parser.add_argument("--port", type=int, default=8077, help="the port to listen on (8077)")
    words = parser.parse_args()
    try:
        feed = Kept(Feed, words.feed, words.feed / "stops.txt")
        image: Callable[[], Image | None] = no_image
        if words.image is not None:
            image = Kept(Image.open, words.image, words.image)
    except OSError as error:
        print(f"csa_web: {error.filename}: {error.strerror}" if error.filename else f"csa_web: {error}", file=sys.stderr)
        return 1
    except ValueError as error:
        print(f"csa_web: {error}", file=sys.stderr)
        return 1
    sessions = Sessions(lambda: CsaClient(port=words.server, timeout=words.timeout, sets=True), words.sessions, words.timeout)
    app = create_app(feed, image, sessions)
    try:
        run, port = bound(app, words.host, words.port, words.sessions)
    except OSError as error:
        print(f"csa_web: can't listen on {words.host}:{words.port}: {error.strerror}", file=sys.stderr)
        return 1
    print(f"csa_web: listening at http://{words.host}:{port}", flush=True)
    run()
    return 0


if __name__ == "__main__":
    sys.exit(main())
