"""The files of crates/system_tests/data/, as tests of the built program read them."""
import glob
import os
import re

DATA = os.path.join(os.path.dirname(os.path.dirname(os.path.abspath(__file__))), 'crates', 'system_tests', 'data')
LENGTH = 64 * 4096      # the bytes of a device that a file `NAME.image` tells


def names_of(ending):
    return sorted(os.path.basename(path)[:-len(ending)] for path in glob.glob(os.path.join(DATA, '*' + ending)))


def text_of(name):
    with open(os.path.join(DATA, name), encoding='utf-8', newline='') as file:
        return file.read()


def expanded(text):
    """A text in which `{N*X}` stands for N times X."""
    return re.sub(r'\{(\d+)\*([^}]*)\}', lambda found: found[2] * int(found[1]), text)


def bytes_of_image(name):
    """What a file of 64 pages holds of which `NAME.image` tells."""
    return bytes(image_of(name).ljust(LENGTH, b'\0'))


def image_of(name):
    """The same without the zeros at its end that are not told."""
    image = bytearray()
    for line in text_of(name + '.image').splitlines():
        word, _, rest = line.partition(' ')
        if word == 'from':
            image = image_of(rest)
        elif word == 'put':
            times, _, digits = rest.partition(' ')
            image += bytes.fromhex(digits) * int(times)
        elif word == 'at':
            put_at(image, rest)
    return image


def put_at(data, text):
    """Puts bytes in the place of those at an offset."""
    at, _, digits = text.partition(' ')
    more = bytes.fromhex(digits)
    data[int(at):int(at) + len(more)] = more
