"""What becomes of a sheet: a picture, harmed or not, the square in it, and the words on it.

Ghostscript is the scanner, and zbarimg reads squares. A picture is PGM: a head, and then a byte for
each dot, row by row.
"""

from collections import namedtuple

from running import run

WIDTH, HEIGHT = 2480, 3508  # of a sheet's picture, in dots of 300 to the inch
MIDDLE = (139, 646)  # of a full page's square, in points from the lower left corner of its sheet

# What happened to a sheet: degrees that it is turned, how often its picture is blurred, and how
# many millimetres wide the blot on its square is.
Harm = namedtuple("Harm", "turned blurred blot")
UNHARMED = Harm(0, 0, 0)


def ghostscript(device, pdf, *before):
    """What ghostscript turns a sheet into."""
    done = run("gs", "-q", "-dSAFER", "-dBATCH", "-dNOPAUSE", f"-sDEVICE={device}", "-r300", "-sOutputFile=-", *before, "-f", pdf)
    if done.status != 0:
        raise OSError(f"gs ended with {done.status} at {pdf}: {done.err.decode(errors='replace')}")
    return done.out


def words(pdf):
    """The lines that can be read on a sheet."""
    return [line.strip() for line in ghostscript("txtwrite", pdf).decode("utf-8").splitlines()]


def lines_to_type(lines):
    """Those of a sheet's lines that are to be typed, which stand between two others: each as its
    number and its text."""
    above, = [at for at, line in enumerate(lines) if line.startswith("To type of page ")]
    cut = (line.partition(" ") for line in lines[above + 1:-1])
    return [(number, text.strip()) for number, _, text in cut]


def picture(pdf, harm=UNHARMED):
    """A picture of a sheet, turned around the middle of its square."""
    across, up = MIDDLE
    turning = f"pop {across} {up} translate {harm.turned} rotate {-across} {-up} translate"
    blotting = f"initgraphics 0.3 setgray {across} {up} {harm.blot / 2 / 25.4 * 72} 0 360 arc fill"
    made = ghostscript("pgmraw", pdf, "-c", f"<< /BeginPage {{ {turning} }} /EndPage {{ exch pop 2 lt dup {{ {blotting} }} if }} >> setpagedevice")
    return b"P5 %d %d 255\n" % (WIDTH, HEIGHT) + blurred(made[-WIDTH * HEIGHT:], harm.blurred)


def blurred(dots, times):
    """Dots of which each is the mean of 16, a square of four by four, and so again.

    All dots are added at once, as one number in which each has 16 bits: the sum of 16 fits.
    """
    if times == 0:
        return dots
    lanes = bytearray(2 * len(dots))
    lanes[::2] = dots
    mask = int.from_bytes(b"\xff\x00" * len(dots), "little")
    number = int.from_bytes(lanes, "little")
    for _ in range(times):
        for step in (1, 2, WIDTH, 2 * WIDTH):
            number += number >> 16 * step
        number = number >> 4 & mask
    return number.to_bytes(2 * len(dots), "little")[::2]


def squares(made):
    """The lines that zbarimg reads in a picture: one for each square, or none.

    It is to look for code squares alone: once in a thousand it takes some columns of one for a bar
    code of another kind and prints a line more. pier would pass over it. 4 is its status where
    there is no square.
    """
    done = run("zbarimg", "--quiet", "--raw", "--nodbus", "-Sdisable", "-Sqrcode.enable", "-", given=made)
    if done.status not in (0, 4):
        raise OSError(f"zbarimg ended with {done.status}: {done.err.decode(errors='replace')}")
    return done.out.splitlines()
