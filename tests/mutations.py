"""Bytes with slips: of scripts and streams, and of images."""

BYTES = b"\n /:?,\\[]-0123456789aenortwx.\x00\xff"


def mutated(chance, content):
    for _ in range(chance.choice([1, 1, 2, 4])):
        at, end = sorted(chance.randrange(len(content) + 1) for _ in range(2))
        how = chance.randrange(6)
        if how == 0 and content:
            place = chance.randrange(len(content))
            content = content[:place] + bytes([content[place] ^ 1 << chance.randrange(8)]) + content[place + 1 :]
        elif how == 1:
            content = content[:at] + content[at + 1 :]
        elif how == 2:
            content = content[:at] + bytes([chance.choice(BYTES)]) + content[at:]
        elif how == 3:
            content = content[:end] + content[at : min(end, at + 60)] + content[end:]
        elif how == 4:
            content = content[:at] + content[min(end, at + 20) :]
        else:
            content = content[: chance.randrange(len(content) + 1)]
    return content


# ---- images

OLDER, NEWER = b"PPSIMAGE 1\n", b"PPSIMAGE 2 256\n"
IMAGE_BYTES = b"\n /:[]-0123456789abcDEO.\x00\xff"


def with_other_bytes(chance, image):
    """A byte is flipped, taken out or put in."""
    at = chance.randrange(len(image))
    return chance.choice(
        [
            image[:at] + bytes([image[at] ^ 1 << chance.randrange(8)]) + image[at + 1 :],
            image[:at] + image[at + 1 :],
            image[:at] + bytes([chance.choice(IMAGE_BYTES)]) + image[at:],
        ]
    )


def with_other_lines(chance, image):
    """Two lines are swapped, or one is doubled or taken out, or the end is cut off."""
    lines = image.splitlines(keepends=True)
    one, other = chance.randrange(len(lines)), chance.randrange(len(lines))
    how = chance.randrange(4)
    if how == 0:
        lines[one], lines[other] = lines[other], lines[one]
    elif how == 1:
        lines.insert(other, lines[one])
    elif how == 2:
        del lines[one]
    else:
        return image[: chance.randrange(len(image) + 1)]
    return b"".join(lines)


def with_a_limit(chance, image):
    """An image of one kind of limit, and half of the time past it."""
    head = chance.choice([OLDER, NEWER])
    past = chance.randrange(2)
    how = chance.randrange(5)
    if how == 0:
        most = (32_768 if head == OLDER else 65_536) + past
        return head + b"O /a 2\nx::1\ny::" + b"v" * (most - 9) + b"\nE 1\n"
    if how == 1:
        kind, count = chance.choice([(b"D /%03d\n", 256), (b"O /%03d 0\n", 256)])
        entries = b"".join(kind % number for number in range(count + past))
        return head + entries + b"E %d\n" % (count + past)
    if how == 2:
        names = [b"/%d" % number for number in range(32 + past)]
        entries = b"".join(b"D " + b"".join(names[:end]) + b"\n" for end in range(1, len(names) + 1))
        return head + entries + b"E %d\n" % len(names)
    if how == 3:
        count = 1_024 + past
        return head + b"O /a %d\n" % count + b"".join(b"x%d::\n" % number for number in range(count)) + b"E 1\n"
    return head + b"O /" + b"n" * (255 + past) + b" 1\n" + b"m" * 255 + b":" + b"e" * 32 + b":\nE 1\n"


def mutated_image(chance, image):
    if chance.randrange(20) == 0:
        image = with_a_limit(chance, image)
        if chance.randrange(2):
            return image
    for _ in range(chance.choice([1, 1, 1, 2, 3])):
        if image:
            image = chance.choice([with_other_bytes, with_other_lines])(chance, image)
    return image
