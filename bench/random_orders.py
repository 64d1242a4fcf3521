"""Random orders for the driver, most of them good."""

NOT_ORDERS = [
    b"fill", b"fill x", b"fill -1", b"fill +1", b"fill 1 2", b"fill0", b"fill 0.", b"fill\x000", b"Fill 0", b"fill 0: 1", b"fill 0\x1f",
    b"fill 0000000000", b"fill 1234567890", b"fill 18446744073709551616", b"fill \xd9\xa0", b"fill\xc2\xa00", b"fill " + b"0" * 5000,
    b"shows 0", b"shows 0 1 2", b"shows 0,1", b"open", b"shut 0x1", b"bitmap 0", b"bit map", b"witness 0", b"witness 0 1 2",
    b"witness a b", b"walk 0", b"through 0", b":", b"\xc3\xa9", b"\xff", b"\xe2\x80\x83fill 0", b"x" * 5000]


def room(rng, rooms):
    if rng.random() < 0.04:
        return rng.choice([rooms, rooms + 1, 255, 256, 257, 65_536, 999_999_999])
    return rng.randrange(rooms)


def doorway(rng, doorways):
    if doorways == 0 or rng.random() < 0.04:
        return rng.choice([doorways, doorways + 1, 2_047, 2_048, 999_999_999])
    return rng.randrange(doorways)


def number(rng, value):
    return b"%d" % value if rng.random() < 0.97 else b"%09d" % value


def order(rng, rooms, doorways):
    word = rng.choices([b"fill", b"shows", b"shut", b"open", b"witness", b"bitmap", b""], [6, 6, 3, 3, 6, 1, 1])[0]
    if word == b"":
        return rng.choice(NOT_ORDERS)
    if word == b"bitmap":
        return word
    if word in (b"shut", b"open"):
        return word + b" " + number(rng, doorway(rng, doorways))
    words = [word] + [number(rng, room(rng, rooms)) for _ in range(1 if word == b"fill" else 2)]
    return rng.choice([b" ", b" ", b" ", b"\t", b"  ", b" \x0b", b"\r\x0c"]).join(words)


def orders(rng, rooms, doorways, fills):
    """At most so many fills and witnesses. Now and then every row is filled, shown and drawn."""
    lines = []
    for _ in range(rng.choice([rng.randint(0, 40), rng.randint(0, 40), rng.randint(0, 300)])):
        if rng.random() < 0.05 and rooms <= fills:
            lines += [b"fill %d" % a for a in range(rooms)] + [b"bitmap"]
            fills -= rooms
        else:
            lines.append(order(rng, rooms, doorways))
        if lines[-1].startswith((b"fill", b"witness")):
            fills -= 1
            if fills <= 0:
                break
        if rng.random() < 0.05:
            lines.append(rng.choice([b"", b" ", b"\t \r", b"\x0b\x0c"]))
    lines = [rng.choice([b"", b"", b"", b" ", b"\t"]) + line + rng.choice([b"", b"", b"", b" ", b"\r"]) for line in lines]
    return b"\n".join(lines) + rng.choice([b"", b"\n", b"\n\n"])
