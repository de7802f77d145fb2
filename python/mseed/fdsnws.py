"""An archive in the SDS layout as an FDSN dataselect service: a WSGI application, for any server of such.

    from wsgiref.simple_server import make_server
    import mseed.fdsnws

    make_server("127.0.0.1", 8080, mseed.fdsnws.application("/archive")).serve_forever()

    gunicorn --threads 8 'mseed.fdsnws:application("/archive")'
    waitress-serve --listen 127.0.0.1:8080 --call mseed.fdsnws:from_environment

It stands on the program `mseed` and on the tools beside it, which are found where they were installed, or where
MSEED_TOOLS says.
"""

import importlib
import os
import sys
from pathlib import Path
from typing import Any, Iterator, Optional, Union

__all__ = ["application", "from_environment"]


def _places() -> Iterator[Path]:
    """Where the tools are looked for: MSEED_TOOLS, where `make install` puts them, and in the repository."""
    named = os.environ.get("MSEED_TOOLS")
    if named:
        yield Path(named)
        return
    here = Path(__file__).resolve().parent
    for above in here.parents:
        if above.name == "lib":
            yield above / "mseed" / "tools"
    yield here.parents[1] / "tools"


def _service() -> Any:
    """The module of the service.

    ImportError where the tools aren't found.
    """
    for place in _places():
        if (place / "mseed_tools" / "service.py").is_file():
            if str(place) not in sys.path:
                sys.path.append(str(place))
            break
    try:
        return importlib.import_module("mseed_tools.service")
    except ModuleNotFoundError as error:
        if error.name not in ("mseed_tools", "mseed_tools.service"):
            raise
        raise ImportError("the tools of mseed aren't found: MSEED_TOOLS may name their folder") from error


def application(root: Union[str, "os.PathLike[str]"], *, limit: Optional[int] = None,
                state: Optional[str] = None) -> Any:
    """The application over the archive below a folder.

    limit: how many bytes an answer has at most; 10,000,000,000 where no number is given.
    state: the folder in which `sds --state` keeps what it said of the archive last, which the page shows.

    ImportError where the tools aren't found.
    """
    service = _service()
    return service.Service(root, limit=service.LIMIT if limit is None else limit, state=state)


def from_environment() -> Any:
    """The same, by the environment: MSEED_ARCHIVE is the folder, MSEED_LIMIT and MSEED_STATE the other two, if they
    are there."""
    limit = os.environ.get("MSEED_LIMIT")
    return application(os.environ["MSEED_ARCHIVE"], limit=int(limit) if limit else None,
                       state=os.environ.get("MSEED_STATE"))
