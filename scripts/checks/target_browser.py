"""A page in Chromium, without a window, that runs a script over files and sends its answer back: for scripts/checks/check-targets and
bench/targets."""
from __future__ import annotations

import subprocess
from http.server import BaseHTTPRequestHandler, ThreadingHTTPServer
from pathlib import Path
from threading import Event, Thread

ROOT = Path(__file__).resolve().parents[2]
PATIENCE = 3600
PAGE = """<!doctype html><meta charset="utf-8"><script type="module">
const send = (path, body) => fetch(path, {{ method: "POST", body }});
async function answer() {{
{script}
}}
answer().then((body) => send("/answer", body), (error) => send("/failed", String(error)));
</script>"""
ANSWERS = """const { answers } = await import("/scripts/checks/target_calls.mjs");
const parts = [];
for await (const part of answers("/module", new Uint8Array(await (await fetch("/runs")).arrayBuffer()))) parts.push(part);
return new Blob(parts);"""
KINDS = {".mjs": "text/javascript", ".wasm": "application/wasm"}


def served(script: str, files: dict[str, Path], work: Path) -> bytes:
    """What the script returns in a page that finds the files under their addresses, and the modules of this repository."""
    answered, said = Event(), {}

    class Handler(BaseHTTPRequestHandler):
        def do_GET(self) -> None:
            file = files.get(self.path) or ROOT / self.path.lstrip("/")
            body = file.read_bytes() if self.path in files or (file.suffix == ".mjs" and file.is_file()) else None
            body = PAGE.format(script=script).encode() if self.path == "/" else body
            self.send_response(404 if body is None else 200)
            self.send_header("Content-Type", "text/html" if self.path == "/" else KINDS.get(file.suffix, "application/octet-stream"))
            self.end_headers()
            self.wfile.write(body or b"")

        def do_POST(self) -> None:
            said[self.path] = self.rfile.read(int(self.headers["Content-Length"]))
            self.send_response(204)
            self.end_headers()
            answered.set()

        def log_message(self, *words: object) -> None:
            pass

    server = ThreadingHTTPServer(("127.0.0.1", 0), Handler)
    Thread(target=server.serve_forever, daemon=True).start()
    browser = subprocess.Popen(["chromium", "--headless=new", "--no-sandbox", "--disable-gpu", "--disable-dev-shm-usage", f"--user-data-dir={work / 'chromium'}",
                                f"http://127.0.0.1:{server.server_port}/"], stdout=subprocess.DEVNULL, stderr=subprocess.DEVNULL)
    try:
        if not answered.wait(PATIENCE):
            said["/failed"] = b"the page did not answer"
    finally:
        browser.terminate()
        browser.wait()
        server.shutdown()
    if "/answer" not in said:
        print(f"Chromium: {said['/failed'].decode(errors='replace')}")
    return said.get("/answer", b"")


def chromium(module: Path, runs: Path, work: Path) -> bytes:
    """The answer to each run, in the form of target_calls."""
    return served(ANSWERS, {"/module": module, "/runs": runs}, work)
