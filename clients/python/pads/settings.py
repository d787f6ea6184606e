"""Which server, and as whom: from the environment, or from ~/.config/vindrughe.

That file has a section for each server, the first of which is taken unless `--server` or PADS_SERVER names one:

    [office]
    address = tls://pads.example:7878
    name = ann
    token = 7Qm2Lx0sWc4nEtRy8aPz1kVd

It may also have `ca`, a file with the certificate of an authority of one's own, and `peer` and `peer-token`, with which
`pads import FILE.etherpad` logs in. Nobody else may be able to read it.
"""
from __future__ import annotations

import configparser
import os
import ssl
import stat
from collections.abc import Mapping
from dataclasses import dataclass, field
from pathlib import Path

from .failure import Failure, Status

DEFAULT = "tcp://127.0.0.1:7878"
KEYS = ("address", "name", "token", "ca", "peer", "peer-token")


@dataclass(frozen=True)
class Settings:
    """Where a server is, and who logs in. A token is never shown."""

    address: str = DEFAULT
    name: str = ""
    token: str = field(default="", repr=False)
    ca: str = ""
    peer: int = 0
    peer_token: str = field(default="", repr=False)

    def tls(self) -> ssl.SSLContext | None:
        """The context of TLS, if the file names an authority."""
        if not self.ca:
            return None
        try:
            return ssl.create_default_context(cafile=self.ca)
        except OSError as error:
            raise Failure(Status.USAGE, f"{self.ca}: {error.strerror or error}") from None


def path_of_file() -> Path:
    """The file, whether it is there or not."""
    return Path(os.environ.get("XDG_CONFIG_HOME") or Path.home() / ".config") / "vindrughe"


def read(server: str | None, variables: Mapping[str, str] = os.environ) -> Settings:
    """The settings of a server, or of the first one. The environment goes before the file.

    Raises:
        Failure: the file cannot be read, others may read it, it has no such server, or nobody is named.
    """
    found = _section(server or variables.get("PADS_SERVER"))
    for key in KEYS:
        if value := variables.get(f"PADS_{key.upper().replace('-', '_')}"):
            found[key] = value
    if not found.get("name") or not found.get("token"):
        raise Failure(Status.USAGE, f"no name and token: log in with `pads log-in`, or set PADS_NAME and PADS_TOKEN ({path_of_file()} has none)")
    return Settings(
        found.get("address", DEFAULT), found["name"], found["token"], found.get("ca", ""), _number(found.get("peer", "")),
        found.get("peer-token", ""),
    )


def _number(text: str) -> int:
    if text and not (text.isdecimal() and 1 <= int(text) <= 65_535):
        raise Failure(Status.USAGE, f"the number of a peer is 1 to 65535, and not {text}")
    return int(text or 0)


def _section(server: str | None) -> dict[str, str]:
    parser = _parsed()
    names = parser.sections()
    if server and server not in names:
        there = f"has {', '.join(names)}" if names else "has none"
        raise Failure(Status.USAGE, f"no server {server}: {path_of_file()} {there}")
    section = dict(parser[server or names[0]]) if names else {}
    if unknown := sorted(set(section) - set(KEYS)):
        raise Failure(Status.USAGE, f"{path_of_file()}: [{server or names[0]}] has {unknown[0]!r}; it may have {', '.join(KEYS)}")
    return section


def _parsed() -> configparser.ConfigParser:
    parser, path = configparser.ConfigParser(interpolation=None, default_section="\0"), path_of_file()
    try:
        with open(path, encoding="utf-8") as file:
            mode = stat.S_IMODE(os.fstat(file.fileno()).st_mode)
            if mode & 0o077:
                raise Failure(Status.USAGE, f"{path}: others may read the tokens in it (its mode is {mode:04o}): chmod 600 {path}")
            parser.read_file(file)
    except FileNotFoundError:
        pass
    except (OSError, UnicodeDecodeError, configparser.Error) as error:
        raise Failure(Status.USAGE, f"{path}: {error}") from None
    return parser


def write(server: str, settings: Settings) -> None:
    """Writes a server into the file, which only its owner may read. The others in it stay."""
    parser, path = _parsed(), path_of_file()
    if not parser.has_section(server):
        parser.add_section(server)
    for key, value in {"address": settings.address, "name": settings.name, "token": settings.token, "ca": settings.ca}.items():
        if value:
            parser[server][key] = value
    path.parent.mkdir(parents=True, exist_ok=True)
    new = path.with_name(f"{path.name}.new")
    with open(os.open(new, os.O_WRONLY | os.O_CREAT | os.O_TRUNC, 0o600), "w", encoding="utf-8") as file:
        os.fchmod(file.fileno(), 0o600)
        parser.write(file)
    os.replace(new, path)
