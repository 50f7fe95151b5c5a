"""Jasminedome over HTTP: a service over one catalogue, to be run by `python -m jasminedome serve` or mounted in an app.

`Service` is what answers, in Python and for any thread. `make_app` makes an ASGI app of it, for which Starlette has to be
there (`jasminedome[http]`); nothing else here needs a library.
"""

from __future__ import annotations

from typing import TYPE_CHECKING

from ..errors import UsageError
from .calls import BackupCalls, CatalogueCalls, KeeperCalls, ReaderCalls, Token, ViewCalls, WriterCalls
from .problems import Gone, Problem
from .searching import Search
from .service import Service
from .settings import Folding, Keys, Settings
from .views import Views

if TYPE_CHECKING:
    from starlette.applications import Starlette

__all__ = [
    "BackupCalls",
    "CatalogueCalls",
    "Folding",
    "Gone",
    "KeeperCalls",
    "Keys",
    "Problem",
    "ReaderCalls",
    "Search",
    "Service",
    "Settings",
    "Token",
    "ViewCalls",
    "Views",
    "WriterCalls",
    "make_app",
]

MISSING = "the HTTP service needs Starlette and uvicorn: pip install 'jasminedome[http]'"
MISSING += ", or apt-get install python3-starlette python3-uvicorn"


def make_app(service: Service, keys: Keys = Keys()) -> "Starlette":
    """An ASGI app that answers by the service, to be run or to be mounted in another one.

    Whoever makes the service closes it, behind the last request. Raises UsageError where Starlette isn't installed.
    """
    try:
        from .app import App
    except ImportError as error:
        raise UsageError(f"{MISSING} ({error})") from None
    return App(service, keys).starlette
