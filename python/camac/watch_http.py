"""Answers a browser of `watch`, by the standard library's HTTP. That takes long to load, so it is loaded when a browser asks."""
import http.server
from typing import TYPE_CHECKING, Any

if TYPE_CHECKING:
    from camac.watch import Server


class Handler(http.server.BaseHTTPRequestHandler):
    """Answers GET and HEAD of the page and of its parts."""

    server: "Server"
    server_version, sys_version = "camac", ""
    # The seconds after which a silent client is left.
    timeout = 20

    def do_GET(self) -> None:
        if self.headers.get("Host", "") not in self.server.hosts():
            self.answer(403, "text/plain", "This page is for a browser on this computer.\n")
            return
        text = self.server.find(self.path)
        if text is None:
            self.answer(404, "text/plain", "There is no such page.\n")
        else:
            self.answer(200, "text/html" if self.path.endswith("/") else "application/json", text)

    do_HEAD = do_GET

    def answer(self, status: int, kind: str, text: str) -> None:
        data = text.encode("utf-8", "replace")
        self.send_response(status)
        for name, value in (
            ("Content-Type", f"{kind}; charset=utf-8"),
            ("Content-Length", str(len(data))),
            ("Cache-Control", "no-store"),
            ("X-Content-Type-Options", "nosniff"),
            ("X-Frame-Options", "DENY"),
            ("Referrer-Policy", "no-referrer"),
        ):
            self.send_header(name, value)
        self.end_headers()
        if self.command != "HEAD":
            self.wfile.write(data)

    def log_message(self, format: str, *args: Any) -> None:
        """Nothing is logged."""
