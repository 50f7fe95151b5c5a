"""The shop's page, as HTML. Whatever comes from a visitor or an item is escaped by `_e` or is part of an encoded address."""

from __future__ import annotations

from dataclasses import dataclass, replace
from html import escape as _e
from typing import Dict, List, Optional
from urllib.parse import urlencode

from sample import COLORS, KINDS
from store import GROUPS, PRICES, SORTS, Shelf, Wish

SORT_NAMES = {"": "As added", "cheap": "Cheapest", "dear": "Dearest"}
PRICE_NAMES = {"0-25": "Under €25", "25-50": "€25 to €50", "50-100": "€50 to €100", "100-": "€100 and more"}
_AROUND = 2  # numbers of pages that are shown on either side of the one that is open


@dataclass(frozen=True)
class Form:
    """What stands in the staff's form, and what was said about it last."""

    values: Dict[str, str]
    is_new: bool = True
    said: str = ""
    is_refused: bool = False


def address(token: Optional[str], wish: Wish, **more: str) -> str:
    """The address of a page; without a token it leads to the newest view."""
    parts = [("t", token)] if token is not None else []
    parts += [("q", wish.typed)] if wish.typed else []
    parts += [(group, label) for group, labels in wish.chosen for label in labels]
    parts += [("price", wish.price)] if wish.price else []
    parts += [("sort", wish.sort)] if wish.sort else []
    parts += [("page", str(wish.page))] if wish.page > 1 else []
    return "/?" + urlencode([*parts, *more.items()])


def writes(token: str) -> int:
    """How many writes the catalogue of a token has."""
    return int(token.partition("-")[0])


def page(shelf: Shelf, wish: Wish, newest: str, form: Form, said: str = "") -> str:
    """The whole page."""
    wish = replace(wish, page=shelf.page)
    title = f"{wish.typed} – " if wish.typed else ""
    return f"""<!DOCTYPE html>
<html lang="en">
<head>
<meta charset="utf-8">
<meta name="viewport" content="width=device-width, initial-scale=1">
<title>{_e(title)}Jasmine &amp; Co.</title>
<link rel="icon" href="/icon.svg">
<link rel="stylesheet" href="/style.css">
<script src="/page.js" defer></script>
</head>
<body>
{_head(shelf, wish)}
{_notice(shelf, wish, newest, said)}
<div class="columns">
{_filters(shelf, wish)}
<main>
{_chosen(shelf, wish)}
{_items(shelf, wish)}
{_pages(shelf, wish)}
</main>
{_staff(shelf, wish, form)}
</div>
</body>
</html>
"""


def _head(shelf: Shelf, wish: Wish) -> str:
    kept = [("t", shelf.token), *((group, label) for group, labels in wish.chosen for label in labels)]
    kept += [(name, value) for name, value in (("price", wish.price), ("sort", wish.sort)) if value]
    hidden = "".join(f'<input type="hidden" name="{_e(name)}" value="{_e(value)}">' for name, value in kept)
    return f"""<header>
<a class="name" href="{_e(address(shelf.token, Wish()))}"><svg><use href="/icon.svg#jasmine"/></svg>Jasmine &amp; Co.</a>
<form class="search" action="/" role="search">{hidden}
<input type="search" name="q" value="{_e(wish.typed)}" placeholder="Search 10 kinds, 20 brands" aria-label="Search" maxlength="200">
<button>Search</button></form>
</header>"""


def _notice(shelf: Shelf, wish: Wish, newest: str, said: str) -> str:
    hidden = " hidden" if newest == shelf.token else ""
    return f"""<p class="view" data-token="{_e(shelf.token)}" role="status">{f'<b>{_e(said)}</b> ' if said else ''}
<span>You look at the catalogue after <b>{writes(shelf.token):,}</b> writes, and it holds still.</span>
<span class="newer"{hidden}>A newer one is there, after <b class="newest">{writes(newest):,}</b>:
<a href="{_e(address(None, wish))}">show it</a></span></p>"""


def _filters(shelf: Shelf, wish: Wish) -> str:
    many = sum(len(labels) for _, labels in wish.chosen) + bool(wish.price)
    groups = "".join(_group(shelf, wish, group) for group in GROUPS)
    prices = "".join(
        _choice(address(shelf.token, replace(wish, price="" if wish.price == name else name, page=1)), PRICE_NAMES[name],
                shelf.counts["price"][name], wish.price == name)
        for name in PRICES if name and (shelf.counts["price"][name] or wish.price == name)
    )  # fmt: skip
    prices = f'<h2>Price</h2><ul data-group="price">{prices}</ul>' if prices else ""
    return f"""<nav aria-label="Filters">
<input type="checkbox" id="filters" class="opener"><label for="filters">Filters{f' ({many})' if many else ''}</label>
<div class="panel">{groups}{prices}</div>
</nav>"""


def _group(shelf: Shelf, wish: Wish, group: str) -> str:
    chosen = wish.labels(group)
    lines = []
    for label, count in shelf.counts[group].items():
        is_chosen = label in chosen
        if not count and not is_chosen:
            continue
        labels = [each for each in chosen if each != label] if is_chosen else [*chosen, label]
        mark = f'<i style="--color:{COLORS[label]}"></i>' if group == "color" and label in COLORS else ""
        lines.append(_choice(address(shelf.token, wish.with_labels(group, labels)), label, count, is_chosen, mark))
    return f'<h2>{group.capitalize()}</h2><ul data-group="{group}">{"".join(lines)}</ul>' if lines else ""


def _choice(href: str, name: str, count: int, is_chosen: bool, mark: str = "") -> str:
    chosen = ' aria-current="true"' if is_chosen else ""
    label = f"{'Without' if is_chosen else 'Only'} {name}, {_counted(count)}"
    shown = f"{mark}<span>{_e(name)}</span><small>{count:,}</small>"
    return f'<li><a href="{_e(href)}" aria-label="{_e(label)}"{chosen}>{shown}</a></li>'


def _counted(count: int) -> str:
    return f"{count:,} {'item' if count == 1 else 'items'}"


def _chosen(shelf: Shelf, wish: Wish) -> str:
    chips = [
        (label, wish.with_labels(group, [each for each in labels if each != label]))
        for group, labels in wish.chosen
        for label in labels
    ]
    if wish.price:
        chips.append((PRICE_NAMES[wish.price], replace(wish, price="", page=1)))
    if wish.typed:
        chips.insert(0, (f"“{wish.typed}”", replace(wish, typed="", page=1)))
    spelled = "".join(
        f'<a class="chip" href="{_e(address(shelf.token, left))}" aria-label="Without {_e(name)}">{_e(name)} ×</a>'
        for name, left in chips
    )
    sorts = "".join(
        f'<a href="{_e(address(shelf.token, replace(wish, sort=name, page=1)))}"'
        f'{" aria-current=true" if wish.sort == name else ""}>{SORT_NAMES[name]}</a>'
        for name in SORTS
    )
    items = _counted(shelf.total).partition(" ")[2]
    return f"""<div class="bar"><h1><span class="total">{shelf.total:,}</span> {items}</h1>{spelled}
<div class="sorts" role="group" aria-label="Order">{sorts}</div></div>"""


def _items(shelf: Shelf, wish: Wish) -> str:
    if not shelf.items:
        return '<p class="none">Nothing is like that here. Try fewer words, or take a filter away.</p>'
    return '<ol class="items">' + "".join(_item(each, shelf, wish) for each in shelf.items) + "</ol>"


def _item(item: Dict[str, object], shelf: Shelf, wish: Wish) -> str:
    id, (kind, brand) = str(item["id"]), (", ".join(_texts(item.get(name))) for name in ("kind", "brand"))
    colors = _texts(item.get("color"))
    paints = [COLORS[each] for each in colors if each in COLORS] or ["#b9b3a6"]
    dots = "".join(f'<i style="--color:{paint}"></i>' for paint in paints)
    icon = kind if kind in KINDS else "bag"
    edit = address(shelf.token, wish, edit=id) + "#staff"
    return f"""<li data-id="{_e(id)}"><div class="picture" style="--color:{paints[0]}">
<svg role="img" aria-label="{_e(kind)}"><use href="/icons.svg#{icon}"/></svg></div>
<p class="title">{_e(str(item.get("title", id)))}</p><p class="brand">{_e(brand)}</p>
<p class="foot"><b class="price">{_e(price_text(item.get("price")))}</b>
<span class="colors" title="{_e(", ".join(colors))}">{dots}</span>
<a class="edit" href="{_e(edit)}" aria-label="Edit {_e(str(item.get("title", id)))}, {_e(id)}">Edit</a></p></li>"""


def _texts(value: object) -> List[str]:
    return [str(each) for each in value] if isinstance(value, list) else []


def price_text(cents: object) -> str:
    """A price in euros, of cents."""
    return f"€{cents // 100:,}.{cents % 100:02}" if isinstance(cents, int) and cents >= 0 else "no price"


def _pages(shelf: Shelf, wish: Wish) -> str:
    if shelf.pages == 1:
        return ""
    near = range(shelf.page - _AROUND, shelf.page + _AROUND + 1)
    shown = sorted({1, shelf.pages, *(number for number in near if 1 <= number <= shelf.pages)})
    parts = []
    for before, number in zip([0, *shown], shown):
        if number - before > 1:
            parts.append("<span>…</span>")
        current = ' aria-current="page"' if number == shelf.page else ""
        href = _e(address(shelf.token, replace(wish, page=number)))
        parts.append(f'<a href="{href}" aria-label="Page {number:,}"{current}>{number:,}</a>')
    if shelf.page > 1:
        parts.insert(0, f'<a rel="prev" href="{_e(address(shelf.token, replace(wish, page=shelf.page - 1)))}">‹ Before</a>')
    if shelf.page < shelf.pages:
        parts.append(f'<a rel="next" href="{_e(address(shelf.token, replace(wish, page=shelf.page + 1)))}">Next ›</a>')
    return f'<div class="pages" role="navigation" aria-label="Pages">{"".join(parts)}</div>'


def _staff(shelf: Shelf, wish: Wish, form: Form) -> str:
    values = {name: _e(form.values.get(name, "")) for name in ("id", "title", "brand", "color", "price")}
    kinds = "".join(
        f'<option{" selected" if kind == form.values.get("kind") else ""}>{kind}</option>' for kind in KINDS
    )
    said = f'<p class="{"refused" if form.is_refused else "done"}" role="alert">{_e(form.said)}</p>' if form.said else ""
    is_open = " checked" if form.said or not form.is_new else ""
    delete = "" if form.is_new else '<button name="do" value="delete" class="quiet">Take it out</button>'
    fresh = "" if form.is_new else f'<a href="{_e(address(shelf.token, wish))}#staff">Another item</a>'
    lock = "" if form.is_new else " readonly"
    return f"""<aside id="staff" aria-label="For the staff">
<input type="checkbox" id="form" class="opener"{is_open}><label for="form">For the staff</label>
<form class="panel" action="/staff" method="post"><h2>For the staff</h2>
<p class="hint">What is saved here is in the next view. The page beside it stays as it is.</p>{said}
<input type="hidden" name="back" value="{_e(address(shelf.token, wish))}">
<label>Id <input name="id" required maxlength="64" value="{values["id"]}"{lock} autocomplete="off"></label>
<label>Title <input name="title" required maxlength="120" value="{values["title"]}"></label>
<label>Kind <select name="kind">{kinds}</select></label>
<label>Brand <input name="brand" maxlength="60" value="{values["brand"]}"></label>
<label>Colors <input name="color" maxlength="120" value="{values["color"]}" placeholder="red, blue"></label>
<label>Price in € <input name="price" inputmode="decimal" required maxlength="12" value="{values["price"]}"></label>
<div class="buttons"><button name="do" value="save">Save</button>{delete}{fresh}</div></form></aside>"""
