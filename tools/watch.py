"""Runs again when files are saved, and shows the page on this machine alone, where it reloads itself."""
import gc
import http.server
import os
import signal
import threading
import time
import files
import outputs

LOOK, REST = 0.3, 0.2
RELOAD = '''<script>
(() => {
  let first = null;
  const look = stamp => { if (first === null) first = stamp; else if (stamp !== first) location.reload(); };
  setInterval(() => fetch('/stamp').then(answer => answer.text()).then(look).catch(() => {}), 500);
})();
</script></body>'''


def stamps(words):
    """when the files of the board were saved; a file that comes or goes beside it counts too"""
    try:
        names = files.files_of(words.boards[0], words)
    except (files.Unread, OSError):
        return None
    told = []
    for which, name in sorted(names.items()):
        try:
            known = os.stat(name) if name else None
            told.append((which, name, known and (known.st_mtime_ns, known.st_size, known.st_ino)))
        except OSError:
            told.append((which, name, 'gone'))
    return told


class Server:
    """serves the page of a board on 127.0.0.1"""

    def __init__(self, port):
        shown = self.shown = {'page': '', 'stamp': 0}

        class Handler(http.server.BaseHTTPRequestHandler):
            def do_GET(self):
                # Another name than that of this machine is a page from elsewhere that wants to read this one.
                known = ('127.0.0.1:%d' % self.server.server_port, 'localhost:%d' % self.server.server_port)
                if self.headers.get('Host') not in known or self.path.split('?')[0] not in ('/', '/stamp'):
                    self.send_error(404)
                    return
                if self.path.startswith('/stamp'):
                    text, kind = str(shown['stamp']), 'text/plain'
                else:
                    text, kind = shown['page'].replace('</body>', RELOAD, 1), 'text/html'
                data = text.encode('utf-8', 'surrogateescape')
                self.send_response(200)
                self.send_header('Content-Type', kind + '; charset=utf-8')
                self.send_header('Content-Length', str(len(data)))
                self.send_header('Cache-Control', 'no-store')
                self.end_headers()
                self.wfile.write(data)

            def log_message(self, *_):
                pass

        self.server = http.server.ThreadingHTTPServer(('127.0.0.1', port), Handler)
        self.server.daemon_threads = True
        threading.Thread(target=self.server.serve_forever, daemon=True).start()

    @property
    def address(self):
        return 'http://127.0.0.1:%d/' % self.server.server_port

    def show(self, one):
        """the page of a run; one that failed has its line alone"""
        if one.verdict:
            self.shown['page'] = outputs.page(one)
        else:
            text = (one.trouble or '').replace('&', '&amp;').replace('<', '&lt;')
            self.shown['page'] = '<!doctype html><html><head><meta charset="utf-8"><title>drc</title></head><body><p>%s</p></body></html>' % text
        self.shown['stamp'] += 1


def watch(words, one, again, tell):
    """runs again and again until it is interrupted, and ends with the last status"""
    server = Server(words.serve) if words.serve is not None else None
    if server:
        server.show(one)
        tell.say('the page: %s' % server.address)
    seen = stamps(words)
    tell.say('waiting for the files to be saved; Ctrl-C ends')
    signal.signal(signal.SIGTERM, signal.default_int_handler)
    try:
        while True:
            time.sleep(LOOK)
            now = stamps(words)
            if now == seen or now is None:
                continue
            # KiCad writes a new file and renames it: what is half there comes to rest first.
            while True:
                time.sleep(REST)
                rest = stamps(words)
                if rest == now:
                    break
                now = rest
            seen, before = now, one
            one = again()
            tell.changes(before, one)
            if server:
                server.show(one)
            gc.collect()
    except KeyboardInterrupt:
        pass
    return one.status
