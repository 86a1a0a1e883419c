"""An upstream behind a proxy, and clients in front of it, by node: what they do is told by the path or by a plan.

The content of each answer begins with a token of its own, which is the truth on which request was handed on as which:
no matching reads content. So does the content of an upload.
"""

import contextlib
import json
import pathlib
from collections.abc import Iterator
from typing import Any

from tools.tests.peers import Place, free_port, process, ran

UPSTREAM = """
const http2 = require('http2');
const [port, address, ending] = process.argv.slice(2);
const SIZES = {small: 2000, medium: 60000, large: 200000, mega: 1000000, huge: 6000000};
const LONGER = [12, 70, 333, 900, 2000, 2000, 5000, 9000];
const server = http2.createServer();
let count = 0, picked = 7;
const seen = new Set();
function content(size) {
  const made = Buffer.alloc(Math.max(size, 12));
  made.write('<t:' + (++count).toString(16).padStart(8, '0') + '>');
  return made;
}
// A small generator of numbers, so that sizes look random and come again.
function pick(most) {
  picked = (picked * 1103515245 + 12345) % 2147483648;
  return Math.floor(picked / 65536) % most;
}
function answer(stream, size, status) {
  if (stream.destroyed || stream.closed) return;
  stream.respond({':status': status || 200, 'content-type': 'application/octet-stream'});
  stream.end(content(size));
}
const ACTS = {
  'think': (stream) => setTimeout(() => answer(stream, 2000), 400),
  'pause': (stream) => {
    stream.respond({':status': 200});
    stream.write(content(1000));
    setTimeout(() => stream.end(Buffer.alloc(1000)), 400);
  },
  'read-late': (stream) => {
    stream.on('end', () => answer(stream, 100));
    setTimeout(() => stream.resume(), 700);
  },
  'read': (stream) => { stream.on('end', () => answer(stream, 100)); stream.resume(); },
  'again': (stream) => {
    if (seen.has('again')) return answer(stream, 2000);
    seen.add('again');
    setTimeout(() => stream.close(http2.constants.NGHTTP2_REFUSED_STREAM), 200);
  },
  'breaks': (stream) => {
    stream.respond({':status': 200});
    stream.write(content(20000));
    setTimeout(() => stream.close(http2.constants.NGHTTP2_INTERNAL_ERROR), 300);
  },
  'dies': (stream) => {
    stream.respond({':status': 200});
    stream.write(content(20000));
    setTimeout(() => stream.session.destroy(), 300);
  },
  'exit': (stream) => { answer(stream, 100); setTimeout(() => process.exit(), 150); },
  'missing': (stream) => answer(stream, 100, 404),
  'empty': (stream) => { stream.respond({':status': 204}); stream.end(); },
  'varies': (stream) => setTimeout(() => answer(stream, LONGER[pick(LONGER.length)]), pick(12)),
};
server.on('sessionError', () => {});
server.on('stream', (stream, headers) => {
  stream.on('error', () => {});
  const name = headers[':path'].split('?')[0].split('/').pop();
  const act = ACTS[name] || ACTS[ending];
  if (act) act(stream);
  else if (name in SIZES) answer(stream, SIZES[name]);
  else answer(stream, 100);
});
server.listen(Number(port), address);
"""

CLIENT = """
const http2 = require('http2');
const [url, plan] = process.argv.slice(2);
const {requests, at_once, connections} = JSON.parse(plan);
let count = 0;
async function one(session, request) {
  return new Promise((done) => {
    const size = request.upload || 0;
    const fields = {':method': size ? 'POST' : (request.method || 'GET'), ':path': request.path, ...request.fields};
    const stream = session.request(fields, {endStream: !size});
    stream.on('error', () => done());
    stream.on('close', () => done());
    stream.resume();
    if (size) {
      const content = Buffer.alloc(size);
      content.write('<c:' + process.pid.toString(16).padStart(4, '0') + (++count).toString(16).padStart(4, '0') + '>');
      stream.end(content);
    }
    if (request.leave) setTimeout(() => stream.close(http2.constants.NGHTTP2_CANCEL), request.leave);
  });
}
async function connection(own) {
  const session = http2.connect(url, {rejectUnauthorized: false});
  session.on('error', () => {});
  const workers = [];
  for (let at = 0; at < at_once; at++) workers.push((async () => {
    while (own.length) {
      const request = own.shift();
      if (request.wait) await new Promise((done) => setTimeout(done, request.wait));
      await one(session, request);
    }
  })());
  await Promise.all(workers);
  session.close();
}
const own = Array.from({length: connections}, () => []);
requests.forEach((request, at) => own[at % connections].push(request));
Promise.all(own.map(connection));
"""
Request = dict[str, Any]


@contextlib.contextmanager
def upstream(folder: pathlib.Path, place: Place, ending: str = "") -> Iterator[int]:
    """The upstream; what a path says that tells nothing is told by the ending."""
    port = free_port()
    script = folder / "upstream.js"
    script.write_text(UPSTREAM)
    with process("node", script, str(port), place.address, ending, port=port, place=place):
        yield port


def asks(url: str, place: Place, folder: pathlib.Path, requests: list[Request], at_once: int, clients: int) -> None:
    """Clients that ask for all of this, so many at once on each of so many connections; keys of TLS are logged."""
    script = folder / "client.js"
    script.write_text(CLIENT)
    plan = json.dumps({"requests": requests, "at_once": at_once, "connections": clients})
    ran(*place.within(0), "node", f"--tls-keylog={folder / 'keys.log'}", script, url, plan)
