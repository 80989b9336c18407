"""Draws a page, its stream byte by byte, and the decoded page: pictures.py PAGE.pbm STREAM.jbg AGAIN.pbm PICTURE.png"""
import os
import sys

from PIL import Image, ImageDraw, ImageFont

from t85._walk import walk

SIZE, MARGIN, GAP = (1660, 330), 24, 96
PAGE, BYTE, COLUMNS = 512, 10, 39
INK, FAINT = "#1f2933", "#616e7c"
HEADER, SEGMENT, CODE, MARKER = "#616e7c", "#b8460e", "#7fa8c9", "#2e7d4f"


def font(size):
    try:
        return ImageFont.truetype("DejaVuSans.ttf", size)
    except OSError:
        return ImageFont.load_default()


def kinds(stream):
    """The colour of each byte."""
    found = [HEADER] * 20
    for stripe in walk(stream).stripes:
        move = 0 if stripe.move is None else 8
        found += [SEGMENT] * move + [CODE] * (stripe.end - stripe.begin - move - 2) + [MARKER] * 2
    return found


def page(picture, name, left):
    with Image.open(name) as image:
        size = PAGE, PAGE * image.height // image.width
        picture.paste(image.convert("L").resize(size, Image.LANCZOS), (left, 80))
    ImageDraw.Draw(picture).rectangle((left - 1, 79, left + size[0], 80 + size[1]), outline=FAINT)


def arrow(draw, left, text):
    draw.line((left + 12, 178, left + GAP - 22, 178), fill=INK, width=4)
    draw.polygon([(left + GAP - 26, 168), (left + GAP - 26, 188), (left + GAP - 8, 178)], fill=INK)
    draw.text((left + GAP / 2 - draw.textlength(text, font=font(22)) / 2, 132), text, fill=INK, font=font(22))


def main():
    source, stream, again, target = sys.argv[1:]
    with open(stream, "rb") as file:
        data = file.read()
    with open(source, "rb") as one, open(again, "rb") as other:
        assert one.read() == other.read()
    picture = Image.new("RGB", SIZE, "white")
    draw = ImageDraw.Draw(picture)
    grid = MARGIN + PAGE + GAP
    right = grid + COLUMNS * BYTE + GAP
    page(picture, source, MARGIN)
    page(picture, again, right)
    for at, colour in enumerate(kinds(data)):
        x, y = grid + at % COLUMNS * BYTE, 80 + at // COLUMNS * BYTE
        draw.rectangle((x, y, x + BYTE - 2, y + BYTE - 2), fill=colour)
    arrow(draw, MARGIN + PAGE, "encode")
    arrow(draw, grid + COLUMNS * BYTE, "decode")
    for left, text in ((MARGIN, f"a page: {os.path.getsize(source):,} bytes"), (grid, f"its stream: {len(data):,} bytes"),
                       (right, "the page again, bit for bit")):
        draw.text((left, 28), text, fill=INK, font=font(28))
    x = grid
    for colour, text in ((HEADER, "header"), (CODE, "code"), (MARKER, "end"), (SEGMENT, "move")):
        if colour in kinds(data):
            draw.rectangle((x, 292, x + 16, 308), fill=colour)
            draw.text((x + 24, 286), text, fill=INK, font=font(22))
            x += 24 + int(draw.textlength(text, font=font(22))) + 26
    picture.save(target, "PNG", optimize=True)


if __name__ == "__main__":
    main()
