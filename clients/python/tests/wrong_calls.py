"""Calls that are wrong. mypy has to complain of each: strict as it is set, it complains of a comment that isn't needed too."""

from jasminedome import Catalogue, Query, View, between
from jasminedome.http import CatalogueCalls, Service


def say(shop: Catalogue, view: View, service: Service) -> None:
    """Never called."""
    shop.put(5)  # type: ignore[arg-type]
    shop.find("*:*")  # type: ignore[attr-defined]
    view.find(count="9")  # type: ignore[arg-type]
    view.find(Query("*:*")).totals  # type: ignore[attr-defined]
    between("price", 1.5, None)  # type: ignore[arg-type]
    service.view(5)  # type: ignore[arg-type]
    catalogue: CatalogueCalls = view  # type: ignore[assignment]
    catalogue.stat()
