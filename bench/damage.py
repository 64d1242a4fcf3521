"""Damage to plans, in their structure and in their bytes. A damaged plan may still be a good one."""
from random_plans import Grid

ODD_BYTES = b"0123456789--  \t\n\x0b\x0c\r\x00\x08\x0e!/:+.#OFPx\x80\xff"


def plan_damage(rng, plan):
    """Changes the plan itself, in one way."""
    if isinstance(plan, Grid):
        y, x = rng.randrange(2 * plan.h + 1), rng.randrange(2 * plan.w + 1)
        plan.rows[y][x] = 1 - plan.rows[y][x]
    elif all(len(face) >= 3 for face in plan.faces):
        rng.choice([backwards, doubled, swapped, repeated, far_corner, short_face, long_face, far_out, lifted, miscounted,
                    used_again, moved])(rng, plan)


def some_face(rng, plan):
    return rng.randrange(len(plan.faces))


def backwards(rng, plan):
    plan.faces[some_face(rng, plan)].reverse()


def doubled(rng, plan):
    plan.faces.insert(rng.randint(0, len(plan.faces)), list(plan.faces[some_face(rng, plan)]))


def used_again(rng, plan):
    face = plan.faces[some_face(rng, plan)]
    plan.faces.insert(rng.randint(0, len(plan.faces)), [face[0], face[1], rng.randrange(len(plan.corners))])


def swapped(rng, plan):
    face = plan.faces[some_face(rng, plan)]
    i, k = rng.sample(range(len(face)), 2)
    face[i], face[k] = face[k], face[i]


def repeated(rng, plan):
    face = plan.faces[some_face(rng, plan)]
    face.insert(rng.randint(0, len(face)), rng.choice(face))


def far_corner(rng, plan):
    face = plan.faces[some_face(rng, plan)]
    face[rng.randrange(len(face))] = rng.choice([len(plan.corners), len(plan.corners) + 1, 1_023, 1_024, 65_536, 999_999])


def short_face(rng, plan):
    k = some_face(rng, plan)
    plan.faces[k] = plan.faces[k][:rng.randint(0, 2)]


def long_face(rng, plan):
    k = some_face(rng, plan)
    plan.faces[k] = (plan.faces[k] * 16)[:rng.randint(15, 20)]


def far_out(rng, plan):
    k = rng.randrange(len(plan.corners))
    corner = list(plan.corners[k])
    corner[rng.randint(0, 1)] = rng.choice([10_000, -10_000, 10_001, -10_001, 999_999, -999_999])
    plan.corners[k] = tuple(corner)


def lifted(rng, plan):
    k = rng.randrange(len(plan.corners))
    plan.corners[k] = plan.corners[k][:2] + (rng.choice([1, -1, 100_000]),)


def moved(rng, plan):
    k = rng.randrange(len(plan.corners))
    plan.corners[k] = rng.choice(plan.corners)[:1] + plan.corners[k][1:]


def miscounted(rng, plan):
    counts = [len(plan.corners), len(plan.faces), rng.choice([0, 7, 999_999])]
    place = rng.randint(0, 1)
    counts[place] = rng.choice([0, 1, 2, counts[place] - 1, counts[place] + 1, 256, 257, 1_024, 1_025, 999_999])
    plan.counts = tuple(max(0, count) for count in counts)


def text_damage(rng, text):
    """Changes the bytes of a plan, in one way."""
    kinds = [flipped, inserted, removed, cut, extended, signed, lengthened, renumbered, headed, padded_out]
    weights = [6, 6, 4, 4, 2, 3, 3, 4, 1, 0.3]
    return rng.choices(kinds, weights)[0](rng, text)


def flipped(rng, text):
    at = rng.randrange(len(text)) if text else 0
    return text[:at] + bytes([rng.choice(ODD_BYTES)]) + text[at + 1:]


def inserted(rng, text):
    at = rng.randint(0, len(text))
    return text[:at] + bytes([rng.choice(ODD_BYTES)]) + text[at:]


def removed(rng, text):
    at = rng.randint(0, len(text))
    return text[:at] + text[at + rng.randint(1, 3):]


def cut(rng, text):
    return text[:rng.randint(0, len(text))]


def extended(rng, text):
    return text + rng.choice([b"0", b" 0", b"\n1\n", b" \n\t", b"#", b" -", b"\x00", b" 3 0 1 2"])


def numbers_at(text):
    """Where numbers start."""
    return [k for k in range(1, len(text)) if text[k:k + 1].isdigit() and text[k - 1:k] in (b" ", b"\n", b"\t", b"\x0b", b"-")]


def signed(rng, text):
    places = numbers_at(text)
    if not places:
        return text
    at = rng.choice(places)
    return text[:at] + rng.choice([b"-", b"+", b"--", b"- ", b"-0"]) + text[at:]


def lengthened(rng, text):
    places = numbers_at(text)
    if not places:
        return text
    at = rng.choice(places)
    return text[:at] + b"0" * rng.randint(1, 8) + text[at:]


def renumbered(rng, text):
    places = numbers_at(text)
    if not places:
        return text
    at = rng.choice(places[:4] if rng.random() < 0.5 else places)
    end = at
    while text[end:end + 1].isdigit():
        end += 1
    number = rng.choice([0, 1, 2, 3, 4, 5, 15, 17, 31, 33, 257, 513, 515, 1_025, 10_001, 123_456, 1_234_567])
    return text[:at] + b"%d" % number + text[end:]


def headed(rng, text):
    heading = rng.choice([b"", b"P", b"P1", b"P4", b"p1", b" P1", b"P1\n", b"P1x",
                          b"O", b"OF", b"OFF", b"off", b"OFF ", b"OFFx", b"COFF"])
    return heading + (text[2:] if rng.random() < 0.5 else b"")


def padded_out(rng, text):
    """White space up to the longest text, or a byte beyond."""
    return text + b" " * (rng.choice([59_999, 60_000, 60_001, 70_000, 140_000]) - len(text))
