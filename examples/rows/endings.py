"""The order in which `compile` reads, what it leaves after a fault, and its statuses."""
import os

from row import SAMPLE

FAULTY = b"[Dictionary]\nName=D\n[Level]\nName=A\n[Level]\nName=B\n"


def files(program, dictionary=SAMPLE, logic=b"", old=None):
    program.write("DICT", dictionary)
    program.write("LOGIC", logic)
    if old is not None:
        program.write("IMAGE", old)


def checks(same):
    """Names, and what is looked at."""

    def refused(words, status, line):
        def check(program):
            files(program, old=b"old")
            same("compile", program.call("compile", *words), (status, b"", line))
            same("the image", program.read("IMAGE"), b"old")
        return check

    def faulty_dictionary(program):
        files(program, FAULTY, old=b"old")
        same("compile", program.call("compile", "DICT", "no-file", "IMAGE"), (1, b"", b"refused 13 line 5\n"))
        same("the image", program.read("IMAGE"), b"old")

    def faulty_logic(program):
        files(program, logic=b"PROC", old=b"old")
        same("compile", program.call("compile", "DICT", "LOGIC", "IMAGE"), (1, b"", b"refused 32 line 1 column 5\n"))
        same("the image", program.read("IMAGE"), b"old")

    def over_an_old_image(program):
        files(program, old=b"old" * 1000)
        same("compile", program.call("compile", "DICT", "LOGIC", "IMAGE")[0], 0)
        same("the front", program.read("IMAGE")[:4], b"CSEB")
        same("verify", program.call("verify", "DICT", "IMAGE")[0], 0)

    def full_device(program):
        if os.path.exists("/dev/full"):
            files(program)
            same("compile", program.call("compile", "DICT", "LOGIC", "/dev/full"), (3, b"", b"refused 71\n"))

    def usage(program):
        status, out, err = program.call("compile", "DICT", "LOGIC")
        same("compile", (status, out, b"csbatch compile DICT LOGIC IMAGE [--messages F] [--order F]" in err), (2, b"", True))

    return [
        ("endings: no dictionary", refused(["no-file", "no-file", "IMAGE"], 3, b"refused 72\n")),
        ("endings: a folder for logic", refused(["DICT", ".", "IMAGE"], 3, b"refused 70\n")),
        ("endings: no messages", refused(["DICT", "LOGIC", "IMAGE", "--messages", "no-file", "--order", "."], 3, b"refused 72\n")),
        ("endings: a folder for the order", refused(["DICT", "LOGIC", "IMAGE", "--order", "."], 3, b"refused 70\n")),
        ("endings: an image that can't be opened", refused(["DICT", "LOGIC", "no-folder/IMAGE"], 3, b"refused 72\n")),
        ("endings: a faulty dictionary", faulty_dictionary),
        ("endings: faulty logic", faulty_logic),
        ("endings: an old image", over_an_old_image),
        ("endings: a full device", full_device),
        ("endings: words that are no command", usage),
    ]
