"""Files over HTTP for a browser: folders by the beginnings of their paths, and texts."""
import http.server
import os
import threading

KINDS = {".html": "text/html", ".js": "text/javascript", ".css": "text/css"}


class StaticFiles:
    """A server of files at a port of its own. `folders` has a folder for each first part of a path, `texts` a text for a path."""

    def __init__(self, folders, texts):
        self.server = http.server.ThreadingHTTPServer(("127.0.0.1", 0), self.handler(folders, texts))
        self.origin = f"http://127.0.0.1:{self.server.server_port}"
        threading.Thread(target=self.server.serve_forever, daemon=True).start()

    @staticmethod
    def handler(folders, texts):
        class Handler(http.server.BaseHTTPRequestHandler):
            def do_GET(self):
                first, _, rest = self.path.lstrip("/").partition("/")
                try:
                    body = texts[self.path].encode() if self.path in texts else read(os.path.join(folders[first], rest))
                except (KeyError, OSError):
                    self.send_error(404)
                    return
                self.send_response(200)
                self.send_header("Content-Type", f"{KINDS.get(os.path.splitext(self.path)[1], 'text/html')}; charset=utf-8")
                self.send_header("Content-Length", str(len(body)))
                self.end_headers()
                self.wfile.write(body)

            def log_message(self, *_):
                pass

        return Handler

    def end(self):
        self.server.shutdown()


def read(path):
    with open(path, "rb") as file:
        return file.read()
