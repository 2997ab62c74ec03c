"""Chromium for tests/viewer: it opens pages by viewer_look.html, which sends back what it found, or prints and draws one as a file."""
import http.server
import json
import os
import signal
import subprocess
import tempfile
import threading

FAULT_COLOUR, CUT_COLOUR = [200, 16, 46], [227, 230, 234]
SECONDS = 600                                       # for all pages together, on a machine that has other work


class Server(http.server.ThreadingHTTPServer):
    """Serves a folder to the browser, and takes what it found."""

    def __init__(self, folder):
        self.found, self.done = None, threading.Event()
        server = self

        class Handler(http.server.SimpleHTTPRequestHandler):
            def __init__(self, *args):
                super().__init__(*args, directory=folder)

            def do_POST(self):
                server.found = json.loads(self.rfile.read(int(self.headers["Content-Length"])))
                self.send_response(204)
                self.end_headers()
                server.done.set()

            def log_message(self, *_):
                pass

        super().__init__(("127.0.0.1", 0), Handler)


def browser(work, *words):
    flags = "--headless --no-sandbox --disable-gpu --hide-scrollbars --no-first-run --window-size=1400,1000".split()
    words = ["chromium", *flags, f"--user-data-dir={tempfile.mkdtemp(dir=work)}", *words]
    return subprocess.Popen(words, stdout=subprocess.PIPE, stderr=subprocess.DEVNULL, start_new_session=True)


def look_at_all(work, asked):
    """What a browser found in each of these pages of the folder; nothing where it didn't come to an end."""
    with open(os.path.join(os.path.dirname(os.path.abspath(__file__)), "viewer_look.html"), encoding="utf-8") as file:
        text = file.read().replace("{{names}}", json.dumps(asked))
    text = text.replace("{{red}}", json.dumps(FAULT_COLOUR)).replace("{{cut}}", json.dumps(CUT_COLOUR))
    with open(os.path.join(work, "look.html"), "w", encoding="utf-8") as file:
        file.write(text)
    server = Server(work)
    threading.Thread(target=server.serve_forever, daemon=True).start()
    running = browser(work, "--remote-debugging-port=0", f"http://127.0.0.1:{server.server_port}/look.html")
    try:
        server.done.wait(SECONDS)
    finally:
        os.killpg(running.pid, signal.SIGKILL)
        running.communicate()
        server.shutdown()
    return server.found or []


def outputs(work, asked):
    """What each of these calls of the browser printed."""
    running = [browser(work, "--virtual-time-budget=5000", *words) for words in asked]
    for each in running:
        try:
            each.output = each.communicate(timeout=SECONDS)[0].decode()
        except subprocess.TimeoutExpired:
            os.killpg(each.pid, signal.SIGKILL)
            each.output = each.communicate()[0].decode()
    return [each.output for each in running]
