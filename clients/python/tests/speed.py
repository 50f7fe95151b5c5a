"""How fast the client is with a program: items a second of `put_many`, and round trips a second of `find`.

    JASMINEDOME_PROGRAM=$(./run --path) python3 clients/python/tests/speed.py
"""

import threading
import time

import support  # first: it finds the package

from jasminedome import term

ITEMS = 100_000
FINDS = 20_000


def item(n):
    title = f"{('Red', 'Blue', 'Warm')[n % 3]} running shoe {n % 100}"
    return {"id": f"item-{n}", "title": title, "brand": f"brand-{n % 50}", "color": [f"color-{n % 12}"], "price": n % 9_000}


def rate(count, call):
    begun = time.perf_counter()
    call()
    return f"{count / (time.perf_counter() - begun):,.0f} a second"


def find_many(shop, count, threads):
    def work():
        with shop.open() as view:
            for n in range(count // threads):
                view.find(term("brand", f"brand-{n % 50}"), count=10)

    workers = [threading.Thread(target=work) for _ in range(threads)]
    for worker in workers:
        worker.start()
    for worker in workers:
        worker.join()


def main():
    items = [item(n) for n in range(ITEMS)]
    with support.shop() as shop:
        print(f"put_many, {ITEMS:,} items:", rate(ITEMS, lambda: shop.put_many(items)))
        print("merge, to the end:", rate(ITEMS, shop.merge), "(items)")
    with support.shop() as shop:
        shop.put_many(items[:5_000])
        shop.refresh()
        for threads in (1, 8):
            print(f"find, a page of 10 of 100 hits, {threads} threads:", rate(FINDS, lambda: find_many(shop, FINDS, threads)))


if __name__ == "__main__":
    main()
