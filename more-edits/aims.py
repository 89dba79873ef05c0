"""The functions that a check is held to: those that an edit turns, or at which the record says that it was refused.

Each is a list of the paths below its crate by which the prover may know it. The prover knows one of them, if it knows the function.
"""
import re

import batches

PROOF = re.compile(r"proofs/(.+)/(?:Answers|Invariants|Proof)\.antt")


def paths_of(crate, function):
    """The paths by which the prover may know a function. One of a trait goes by the type and the trait, with what that is of."""
    if function.kind != "member":
        return batches.places_of(crate, function)
    front = re.sub(r"^impl *(<.*?>(?= *[A-Z]))?", "", function.front)
    words = re.findall(r"\w+", re.sub(r"'\w+", "", front.partition(" for ")[0]))
    owners = dict.fromkeys(function.owner + it for it in ("".join(words), function.trait))
    return ["::".join([*module, owner, function.name]) for owner in owners for module in crate.modules_of(function)]


def paths_at(crate, how):
    """The paths of the function at which an edit ended by the record, or of which a closure or a file of the proof stands there."""
    place = how[1] if len(how) > 1 else "/"
    proof = PROOF.fullmatch(place)
    if not proof and "/" in place:
        return []
    parts = (proof[1].replace("/", "::") if proof else place).split("::")
    inner = [it for it in parts if it != "fn"]
    if inner[-1].startswith("+"):
        cycles = re.findall(r"\w+", inner[-1])
        members = [it.name for it in crate.functions if set(cycles) & set(re.findall(r"#\[cycle\((\w+)\)\]", it.attributes))]
        return ["::".join([*inner[:-1], it]) for it in dict.fromkeys([*cycles, *members])]
    return ["::".join(inner[:k]) for k in range(len(inner) - 1, 0, -1)] if len(inner) < len(parts) else ["::".join(inner)]


def unknown_of(said, paths):
    """Those of the paths that fit no function, by what the check said that ended at once."""
    return {it for it in paths if f"`{it}`" in said}
