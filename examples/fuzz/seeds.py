"""What is mutated: the files of the examples, each set of them a case that every command takes as it is."""
import glob
import os

import images
from calls import call

ROOT = os.path.dirname(os.path.dirname(os.path.dirname(os.path.realpath(__file__))))
EMPTY = b"[Dictionary]\nName=T\n[Level]\nName=L\n"
NO_DECKS = b"CSEB DECKS 1\nEND\n"


def example(*path):
    with open(os.path.join(ROOT, *path), "rb") as file:
        return file.read()


def case(dictionary, image, data=b"", decks=NO_DECKS, logic=b"", messages=b"", order=b""):
    return {"DICT": dictionary, "IMAGE": image, "DATA": data, "DECKS": decks, "LOGIC": logic, "MESSAGES": messages, "ORDER": order}


def household(image=b""):
    read = {name: example("examples", "household", f"HOUSEHOLD.{name}") for name in ("dcf", "dat", "decks", "apc", "mgf", "order")}
    return case(read["dcf"], image, read["dat"], read["decks"], read["apc"], read["mgf"], read["order"])


def cases():
    """The cases that stand without a compiler. Those of `plain` have an image that changes no data."""
    data = example("examples", "household", "HOUSEHOLD.dat")
    hello = example("examples", "hello", "HELLO.dcf")
    found = {"deck": case(images.DICTIONARY, images.deck_image(), images.DATA, images.DECKS)}
    for path in sorted(glob.glob(os.path.join(ROOT, "examples/hello/*.img")) + glob.glob(os.path.join(ROOT, "crates/csbatch/data/*.img"))):
        found["plain " + os.path.relpath(path, ROOT)] = case(hello, example(path), data)
    return found


def compiled(program, folder, seconds):
    """The case of examples/household with the image that the program makes of its logic; and where it makes none, why."""
    answer = call(program, "compile", household(), folder, seconds, None)
    return household(answer.files.get("MADE", b"")), answer


def donors():
    """Other files for each reader, whose ends are put behind the fronts of others."""
    home = household()
    found = {name: [home[name]] for name in home}
    found["DICT"] += [images.DICTIONARY, EMPTY, example("examples", "sample", "SAMPLE.dcf")]
    found["IMAGE"] = [images.deck_image(), example("examples", "hello", "hello.img"), example("examples", "hello", "hello-v1.img")]
    found["DATA"].append(images.DATA)
    found["DECKS"].append(images.DECKS)
    return found
