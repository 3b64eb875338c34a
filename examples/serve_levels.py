#!/usr/bin/env python3
"""Serves a folder on this machine, with parts of its files, as the explorer asks for them.

    examples/serve_levels.py FOLDER [PORT]

The folder is one that explorer/site makes. Of each entry that is shown the page then reads six bytes. Any web
server that knows Range will do.
"""
import re
import sys
from functools import partial
from http.server import SimpleHTTPRequestHandler, ThreadingHTTPServer
from pathlib import Path


class Parts(SimpleHTTPRequestHandler):
    """Python's own handler gives whole files alone."""

    protocol_version = "HTTP/1.1"
    disable_nagle_algorithm = True  # else a part waits for its head to be acknowledged

    def do_GET(self):
        asked = re.fullmatch(r"bytes=(\d+)-(\d+)", self.headers.get("Range", ""))
        path = Path(self.translate_path(self.path))
        if not asked or not path.is_file():
            return super().do_GET()
        first, last = map(int, asked.groups())
        with path.open("rb") as file:
            file.seek(first)
            part = file.read(last + 1 - first)
        self.send_response(206)
        self.send_header("Content-Range", f"bytes {first}-{first + len(part) - 1}/{path.stat().st_size}")
        self.send_header("Content-Length", str(len(part)))
        self.end_headers()
        self.wfile.write(part)


if __name__ == "__main__":
    folder, port = sys.argv[1], int(sys.argv[2]) if len(sys.argv) > 2 else 8000
    with ThreadingHTTPServer(("127.0.0.1", port), partial(Parts, directory=folder)) as server:
        print(f"http://127.0.0.1:{server.server_port}/", flush=True)
        server.serve_forever()
