"""Proxies that speak HTTP/2 on both sides, for the tests of h2audit-why on both legs."""

import contextlib
import pathlib
import shutil
from collections.abc import Iterator
from contextlib import AbstractContextManager
from typing import Protocol

from tools.tests.peers import Place, free_port, process
from tools.tests.tls_talk import certificate

Words = list[str | pathlib.Path]


class Proxy(Protocol):
    """A proxy that listens in front, and whose upstream is at an address and port; it may take words of its own."""

    __name__: str

    def __call__(
        self, folder: pathlib.Path, place: Place, address: str, upstream: int, *more: str
    ) -> AbstractContextManager[int]:
        ...


@contextlib.contextmanager
def nghttpx(folder: pathlib.Path, place: Place, address: str, upstream: int, *more: str) -> Iterator[int]:
    """Words are options of its command line."""
    port = free_port()
    words: Words = ["nghttpx", "--conf=/dev/null", f"--errorlog-file={folder}/nghttpx.log", "--workers=1"]
    ways = [f"--frontend={place.address},{port};no-tls"]
    if not any(word.startswith("--backend=") for word in more):
        ways.append(f"--backend={address},{upstream};;proto=h2")
    with process(*words, *ways, *more, port=port, place=place):
        yield port


HAPROXY = """
global
    nbthread 1
defaults
    mode http
    timeout connect 1s
    timeout client 60s
    timeout server 60s
    http-reuse always
    retries 3
    {more}
frontend front
    bind {address}:{port} {front}
    default_backend back
backend back
    server upstream {back}:{upstream} {speaks}
"""


@contextlib.contextmanager
def haproxy(folder: pathlib.Path, place: Place, address: str, upstream: int, *more: str) -> Iterator[int]:
    """Words are lines of its defaults; with `mode tcp` it hands on bytes alone, and `tls` is TLS in front."""
    port = free_port()
    configuration = folder / "haproxy.cfg"
    speaks = "" if "mode tcp" in more else "proto h2"
    configuration.write_text(
        HAPROXY.format(
            more="\n    ".join(word for word in more if word != "tls"),
            address=place.address,
            port=port,
            back=address,
            upstream=upstream,
            front=f"ssl crt {certificate(folder, 'ec')} alpn h2" if "tls" in more else speaks,
            speaks=speaks,
        )
    )
    with process("haproxy", "-db", "-f", configuration, port=port, place=place):
        yield port


CADDY = """
{{
    admin off
    auto_https off
    storage file_system {folder}/caddy
    servers {{
        protocols h1 h2c
    }}
}}
http://:{port} {{
    bind {address}
    {more}
    reverse_proxy {scheme}://{back}:{upstream}
}}
"""


@contextlib.contextmanager
def caddy(folder: pathlib.Path, place: Place, address: str, upstream: int, *more: str) -> Iterator[int]:
    """Words are lines of its site; `http` is HTTP/1.1 behind."""
    port = free_port()
    configuration = folder / "Caddyfile.proxy"
    lines = "\n    ".join(word for word in more if word != "http")
    scheme = "http" if "http" in more else "h2c"
    configuration.write_text(
        CADDY.format(
            folder=folder, address=place.address, port=port, back=address, upstream=upstream, more=lines, scheme=scheme
        )
    )
    with process("caddy", "run", "--adapter", "caddyfile", "--config", configuration, port=port, place=place):
        yield port


APACHE = """
ServerRoot {folder}
DefaultRuntimeDir {folder}
PidFile {folder}/apache.pid
ErrorLog {folder}/apache.log
ServerName localhost
User www-data
Group www-data
Listen {address}:{port}
LoadModule mpm_event_module {modules}/mod_mpm_event.so
LoadModule authz_core_module {modules}/mod_authz_core.so
LoadModule http2_module {modules}/mod_http2.so
LoadModule proxy_module {modules}/mod_proxy.so
LoadModule proxy_http2_module {modules}/mod_proxy_http2.so
Protocols h2c
StartServers 1
{more}
ProxyPass / h2c://{back}:{upstream}/
"""


@contextlib.contextmanager
def apache(folder: pathlib.Path, place: Place, address: str, upstream: int, *more: str) -> Iterator[int]:
    """Words are lines of its configuration."""
    port = free_port()
    configuration = folder / "apache.conf"
    configuration.write_text(
        APACHE.format(
            folder=folder,
            address=place.address,
            port=port,
            modules="/usr/lib/apache2/modules",
            back=address,
            upstream=upstream,
            more="\n".join(more),
        )
    )
    with process("apache2", "-D", "FOREGROUND", "-f", configuration, port=port, place=place):
        yield port


NGINX = """
daemon off; master_process off; pid {folder}/nginx.pid; error_log {folder}/error.log;
events {{ worker_connections 1024; }}
http {{
    access_log off; client_body_temp_path {folder}/body; proxy_temp_path {folder}/proxy; fastcgi_temp_path {folder}/f;
    uwsgi_temp_path {folder}/u; scgi_temp_path {folder}/s; keepalive_timeout 60s;
    upstream back {{ server {back}:{upstream}; keepalive 8; }}
    server {{ listen {address}:{port} http2; {more} location / {{ {passes} }} }}
}}
"""


@contextlib.contextmanager
def nginx(folder: pathlib.Path, place: Place, address: str, upstream: int, *more: str) -> Iterator[int]:
    """Words are lines of its server; `http` is HTTP/1.1 behind."""
    port = free_port()
    configuration = folder / "nginx.proxy.conf"
    lines = " ".join(word for word in more if word != "http")
    passes = "proxy_pass http://back;" if "http" in more else "grpc_pass grpc://back;"
    configuration.write_text(
        NGINX.format(
            folder=folder, address=place.address, port=port, back=address, upstream=upstream, more=lines, passes=passes
        )
    )
    words: Words = ["nginx", "-e", folder / "error.log", "-p", folder, "-c", configuration]
    with process(*words, port=port, place=place):
        yield port


PROGRAMS = {"nghttpx": "nghttpx", "haproxy": "haproxy", "caddy": "caddy", "apache": "apache2", "nginx": "nginx"}
PROXIES: dict[str, Proxy] = {one.__name__: one for one in (nghttpx, haproxy, caddy, apache, nginx)}


def is_there(name: str) -> bool:
    """Whether a proxy is installed."""
    return shutil.which(PROGRAMS[name]) is not None
