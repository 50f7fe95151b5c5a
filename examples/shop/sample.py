"""A sample catalogue: 5,000 things to wear, the same ones at every call."""

from __future__ import annotations

import itertools
import json
import random
from pathlib import Path
from typing import Dict, Iterator, List

FIELDS = {"title": "text", "words": "text", "kind": "facet", "brand": "facet", "color": "facet", "price": "number"}

COLORS = {
    "black": "#33333a",
    "blue": "#2f6fb2",
    "brown": "#82583a",
    "green": "#4a8f57",
    "grey": "#8d939a",
    "orange": "#d97a2b",
    "pink": "#d9799b",
    "purple": "#7b4f9e",
    "red": "#c23b32",
    "teal": "#2e8f8c",
    "white": "#e6e1d5",
    "yellow": "#dfb136",
}
"""The colors that items have, and how the page paints them."""

KINDS = {
    "bag": (["canvas", "leather", "waxed"], ["day bag", "weekend bag", "messenger bag", "tote bag"], 2_900),
    "boot": (["leather", "suede", "waxed"], ["hiking boot", "ankle boot", "winter boot", "Chelsea boot"], 8_900),
    "glove": (["wool", "leather", "fleece"], ["glove", "riding glove", "mitten glove"], 1_900),
    "hat": (["felt", "wool", "straw"], ["sun hat", "bucket hat", "rain hat"], 2_400),
    "jacket": (["denim", "waxed", "down", "rain"], ["jacket", "field jacket", "short jacket"], 9_900),
    "scarf": (["wool", "silk", "cashmere"], ["scarf", "wide scarf", "striped scarf"], 2_500),
    "shirt": (["linen", "cotton", "flannel"], ["shirt", "work shirt", "striped shirt"], 3_500),
    "shoe": (["canvas", "leather", "mesh"], ["running shoe", "walking shoe", "tennis shoe", "deck shoe"], 5_900),
    "sock": (["wool", "cotton", "silk"], ["sock", "hiking sock", "knee sock"], 700),
    "sweater": (["merino", "cotton", "lambswool"], ["sweater", "roll-neck sweater", "cable sweater"], 5_500),
}
"""For each kind its materials, its names, and about what it costs, in cents."""

BRANDS = ["Acme", "Birkholm", "Corvina", "Dunmore", "Eider & Sons", "Falkenrath", "Grünwald", "Halyard", "Iver", "Juniper"]
BRANDS += ["Kestrel", "L'Étoile", "Marlow", "Nordwind", "Ostara", "Pemberton", "Quill", "Rook", "Søndre", "Zed"]
LOOKS = ["", "", "", "Light ", "Warm ", "Soft ", "Everyday ", "Classic "]

COUNT = 5_000


def items() -> Iterator[Dict[str, object]]:
    """The items, as they are put."""
    chance = random.Random("a shop")
    weights = [len(BRANDS) - place for place in range(len(BRANDS))]
    numbers = {kind: itertools.count(1) for kind in KINDS}
    for _ in range(COUNT):
        kind = chance.choice(list(KINDS))
        materials, names, cost = KINDS[kind]
        title = f"{chance.choice(LOOKS)}{chance.choice(materials)} {chance.choice(names)}"
        colors = chance.sample(list(COLORS), chance.choice([1, 1, 1, 2]))
        price = int(cost * chance.uniform(0.6, 2.2)) // 50 * 50 + chance.choice([0, 40, 45])
        id = f"{kind}-{next(numbers[kind])}"
        yield item(id, title[0].upper() + title[1:], kind, chance.choices(BRANDS, weights)[0], colors, price)


def item(id: str, title: str, kind: str, brand: str, colors: List[str], price: int) -> Dict[str, object]:
    """One item; `words` is all by which a visitor may look for it, in small letters, and the price is in cents."""
    words = " ".join([title, brand, kind, *colors]).lower()
    return {"id": id, "title": title, "words": words, "kind": [kind], "brand": [brand], "color": colors, "price": price}


def write(path: Path) -> None:
    """Writes the items into a file, a line of JSON each."""
    with path.open("w", encoding="utf-8") as file:
        file.writelines(json.dumps(each, ensure_ascii=False) + "\n" for each in items())
