"""Numbers and names as a page has them."""
from html import escape


def shown(name):
    """A name for a page: what UTF-8 doesn't have, or no printer shows, is spelled out."""
    text = name.encode("utf-8", "backslashreplace").decode("utf-8")
    spelled = (char if char.isprintable() else char.encode("unicode_escape").decode() for char in text)
    return escape("".join(spelled))


def grouped(number):
    return f"{number:,}"


def counted(number, one, many):
    return f"{grouped(number)} {one if number == 1 else many}"


def plain(text):
    """A decimal number without zeros at its end."""
    return text.rstrip("0").rstrip(".") if "." in text and "e" not in text else text


def length(size, unit):
    """A length in micrometres, of which this many parts are one; exact where that has no factors but 2 and 5."""
    return plain(f"{size / unit:,.{len(str(unit)) + 1}f}")


def area(triangles, unit):
    """An area in square micrometres: two triangles are a square of the half grid."""
    value = triangles / (2 * unit * unit)
    if value >= 100:
        return f"{value:,.3f}"
    return plain(f"{value:.6g}" if value >= 0.001 or value == 0 else f"{value:.3g}")


def class_words(lower, upper):
    """A class of a histogram by its edges."""
    first = plain(f"{lower:,.7f}")
    return f"{first} and more" if upper == float("inf") else f"{first} – {plain(f'{upper:,.7f}')}"


def share(part, whole):
    """A percentage, which is 0 or 100 only where it is."""
    if part in (0, whole):
        return "0 %" if part == 0 else "100 %"
    return f"{min(max(100 * part / whole, 0.01), 99.99):.2f} %"


def seconds(number):
    return f"{number:,.2f} s"
