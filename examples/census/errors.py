"""Errors of the kinds that CENSUS.apc looks for: of whom, how often, and what is to become of each.

A person or a death has one error at most, a dwelling one of each list, and what an error leans on has none. So each is found
by one message, and by no other.
"""
from dataclasses import dataclass

KEPT, RESTORED, IMPUTED = "kept", "restored", "imputed"

AGE, REL, SEX, BORN, ALIVE = "P05_AGE", "P03_REL", "P04_SEX", "P22_BORN", "P23_ALIVE"
GRADE, ATTEND, WORK, MARITAL, MOTHER = "P14_GRADE", "P13_ATTEND", "P17_WORK", "P16_MARITAL", "P12_MOTHER"
BIRTH, LAST = ("P06_BIRTH_YEAR", "P06_BIRTH_MONTH"), ("P24_LAST_YEAR", "P24_LAST_MONTH")
JOB = ("P18_OCCUPATION", "P19_INDUSTRY", "P20_STATUS")
DIFFICULTIES = [f"P11_{name}" for name in ("SEEING", "HEARING", "WALKING", "MEMORY", "CARE", "SPEECH")]
ASSETS = [f"H13_{name}" for name in ("RADIO", "TV", "PHONE", "BICYCLE", "CAR")]


@dataclass
class Kind:
    """The message; the share of the records that may have it; what becomes of the line; the items that are imputed."""

    message: int
    share: float
    fate: str
    imputed: tuple
    fits: object  # of the record (and its household): whether it may have this error
    wrong: object  # of the draws and the record (and its household): the values that are written instead


def woman(p):
    return p[SEX] == 2 and p[AGE] >= 12


def blank(*names):
    return dict.fromkeys(names)


def value(name, *wrongs):
    return lambda dice, record: {name: dice.one((None, None, *wrongs))}


def of_age(least, most=200):
    return lambda p: least <= p[AGE] <= most


def working(p):
    return p[WORK] == 1


def mothers(p):
    return woman(p) and p[ALIVE] >= 1


PERSONS = [
    Kind(201, 0.008, RESTORED, (AGE,), lambda p: True, lambda dice, p: {AGE: dice.one((None, 999, "1A"))}),
    Kind(202, 0.008, RESTORED, (AGE,), of_age(0, 100), lambda dice, p: {AGE: p[AGE] + dice.between(1, 9)}),
    Kind(203, 0.006, IMPUTED, BIRTH, lambda p: True, lambda dice, p: dice.one((blank(*BIRTH), {BIRTH[1]: 13}, {BIRTH[0]: 0}))),
    Kind(204, 0.03, IMPUTED, (AGE, *BIRTH), lambda p: p[AGE] < 5, lambda dice, p: blank(AGE, *BIRTH)),
    Kind(204, 0.05, IMPUTED, (AGE, *BIRTH),
         lambda p: p[REL] >= 6 and p[AGE] >= 18 and p[SEX] == p[MARITAL] == 1 and (p[GRADE] or 0) <= 13,
         lambda dice, p: blank(AGE, *BIRTH)),
    Kind(105, 0.004, RESTORED, (), lambda p: True, lambda dice, p: {"P01_LINE": dice.one((None, 0, 77))}),
    Kind(211, 0.006, RESTORED, (SEX,), of_age(12), value(SEX, 3)),
    Kind(211, 0.006, IMPUTED, (SEX,), of_age(0, 11), value(SEX, 0)),
    Kind(221, 0.004, IMPUTED, (), lambda p: True, lambda dice, p: blank("P02_NAME")),
    Kind(231, 0.006, IMPUTED, ("P07_BIRTHPLACE",), lambda p: True, value("P07_BIRTHPLACE", 5, 91)),
    Kind(232, 0.01, RESTORED, (), of_age(0, 4), lambda dice, p: {"P08_RESIDENCE": dice.between(1, 4)}),
    Kind(233, 0.006, IMPUTED, ("P08_RESIDENCE",), of_age(5), value("P08_RESIDENCE", 7)),
    Kind(241, 0.005, IMPUTED, ("P09_RELIGION",), lambda p: True, value("P09_RELIGION", 9)),
    Kind(242, 0.005, IMPUTED, ("P10_LANGUAGE",), lambda p: True, value("P10_LANGUAGE", 99)),
    Kind(261, 0.004, RESTORED, (), of_age(18), lambda dice, p: {MOTHER: dice.between(0, 2)}),
    Kind(262, 0.01, IMPUTED, (MOTHER,), of_age(0, 17), value(MOTHER, 29)),
    Kind(271, 0.01, RESTORED, (), of_age(0, 4), lambda dice, p: {ATTEND: 2, GRADE: 1}),
    Kind(272, 0.006, IMPUTED, (ATTEND,), of_age(5), value(ATTEND, 8)),
    Kind(273, 0.02, RESTORED, (), lambda p: p[ATTEND] == 1, lambda dice, p: {GRADE: dice.between(0, 4)}),
    Kind(274, 0.006, IMPUTED, (GRADE,), lambda p: (p[ATTEND] or 0) > 1, value(GRADE, 19)),
    Kind(275, 0.01, IMPUTED, (GRADE,), lambda p: (p[ATTEND] or 0) > 1 and p[AGE] <= 19,
         lambda dice, p: {GRADE: p[AGE] - dice.between(1, 4)}),
    Kind(276, 0.006, RESTORED, (), of_age(0, 9), lambda dice, p: {"P15_LITERACY": dice.between(1, 2)}),
    Kind(277, 0.006, IMPUTED, ("P15_LITERACY",), of_age(10), value("P15_LITERACY", 3)),
    Kind(278, 0.01, RESTORED, ("P15_LITERACY",), lambda p: (p[GRADE] or 0) >= 8 and p[AGE] >= 10,
         lambda dice, p: {"P15_LITERACY": 2}),
    Kind(281, 0.006, RESTORED, (), of_age(0, 11), lambda dice, p: {MARITAL: dice.between(1, 4)}),
    Kind(282, 0.006, IMPUTED, (MARITAL,), of_age(12), value(MARITAL, 7)),
    Kind(283, 0.01, RESTORED, (MARITAL,), lambda p: p[REL] <= 2 and p[MARITAL] == 2, lambda dice, p: {MARITAL: dice.one((1, 3, 4))}),
    Kind(291, 0.006, RESTORED, (), of_age(0, 9), lambda dice, p: {WORK: 1, JOB[0]: 61, JOB[1]: 1, JOB[2]: 4}),
    Kind(292, 0.008, RESTORED, (WORK,), working, value(WORK, 9)),
    Kind(292, 0.006, IMPUTED, (WORK,), lambda p: p[AGE] >= 10 and not working(p), value(WORK, 0)),
    Kind(293, 0.006, RESTORED, (), lambda p: p[AGE] >= 10 and not working(p), lambda dice, p: {JOB[0]: 52, JOB[1]: 4}),
    Kind(294, 0.008, IMPUTED, JOB[:1], working, value(JOB[0], 99)),
    Kind(295, 0.008, IMPUTED, JOB[1:2], working, value(JOB[1], 0)),
    Kind(296, 0.008, IMPUTED, JOB[2:], working, value(JOB[2], 7)),
    Kind(301, 0.005, RESTORED, (), lambda p: not woman(p), lambda dice, p: {BORN: 2, ALIVE: 1}),
    Kind(302, 0.01, IMPUTED, (BORN,), mothers, value(BORN, 77)),
    Kind(303, 0.01, IMPUTED, (ALIVE,), woman, value(ALIVE, 66)),
    Kind(304, 0.01, IMPUTED, (ALIVE,), mothers, lambda dice, p: {ALIVE: p[BORN] + dice.between(1, 3)}),
    Kind(305, 0.04, IMPUTED, (BORN,), lambda p: mothers(p) and p[AGE] <= 28, lambda dice, p: {BORN: p[AGE] - dice.between(8, 10)}),
    Kind(306, 0.01, RESTORED, (), lambda p: woman(p) and p[BORN] == 0, lambda dice, p: {LAST[0]: 2015, LAST[1]: 6}),
    Kind(307, 0.01, IMPUTED, LAST, mothers, lambda dice, p: dice.one((blank(*LAST), {LAST[1]: 0}, {LAST[0]: 2033}))),
    Kind(308, 0.01, IMPUTED, LAST, lambda p: mothers(p) and p[AGE] <= 90, lambda dice, p: {LAST[0]: p[BIRTH[0]] + dice.between(5, 11)}),
]
# Errors of a woman with children below 18 in the household, who then have none.
MOTHERS = [
    Kind(309, 0.02, IMPUTED, (ALIVE,), mothers, lambda dice, p: {}),
    Kind(310, 0.02, IMPUTED, (BORN, ALIVE, *LAST), mothers, lambda dice, p: blank(BORN, ALIVE, *LAST)),
]
# Errors of the structure: one at most of a household, which has a head, or this spouse, too.
RELATIONS = [
    Kind(110, 0.004, RESTORED, (REL,), lambda p, h: p[REL] == 1, lambda dice, p: {REL: 6}),
    Kind(111, 0.04, RESTORED, (REL,), lambda p, h: p[REL] == 6, lambda dice, p: {REL: 1}),
    Kind(112, 0.06, RESTORED, (REL,), lambda p, h: p[REL] == 6 and p[AGE] >= 12 and h.has_spouse(), lambda dice, p: {REL: 2}),
    Kind(113, 0.005, RESTORED, (REL,), lambda p, h: p[REL] == 3 and p[AGE] < 12, lambda dice, p: {REL: 2}),
    Kind(114, 0.004, IMPUTED, (REL,), lambda p, h: p[REL] >= 3, value(REL, 9)),
    Kind(115, 0.01, RESTORED, (SEX,), lambda p, h: p[REL] == 2, lambda dice, p: {SEX: 3 - p[SEX]}),
    Kind(116, 0.06, RESTORED, (REL,), lambda p, h: p[REL] == 6 and p[AGE] > h.persons[0][AGE] - 12, lambda dice, p: {REL: 3}),
    Kind(117, 0.04, RESTORED, (REL,), lambda p, h: p[REL] == 6 and p[AGE] < h.persons[0][AGE] + 12, lambda dice, p: {REL: 4}),
]
DEATHS = [
    Kind(501, 0.02, RESTORED, (), lambda d: True, lambda dice, d: {"D01_LINE": dice.one((None, 0, 33))}),
    Kind(502, 0.05, RESTORED, ("D02_SEX",), lambda d: 12 <= d["D03_AGE"] <= 49, value("D02_SEX", 4)),
    Kind(502, 0.03, IMPUTED, ("D02_SEX",), lambda d: not 12 <= d["D03_AGE"] <= 49, value("D02_SEX", 0)),
    Kind(503, 0.04, IMPUTED, ("D03_AGE",), lambda d: True, value("D03_AGE", 199)),
    Kind(504, 0.04, RESTORED, ("D05_YEAR",), lambda d: True, lambda dice, d: {"D05_YEAR": dice.one((None, 2020, 2025))}),
    Kind(505, 0.08, IMPUTED, ("D04_MONTH",), lambda d: True, value("D04_MONTH", 13)),
    Kind(506, 0.05, RESTORED, (), lambda d: d["D06_MATERNAL"] is None, lambda dice, d: {"D06_MATERNAL": dice.between(1, 2)}),
    Kind(507, 0.2, IMPUTED, ("D06_MATERNAL",), lambda d: d["D06_MATERNAL"], value("D06_MATERNAL", 3)),
    Kind(508, 0.03, IMPUTED, ("D07_REGISTERED",), lambda d: True, value("D07_REGISTERED", 5)),
]


def plain(message, name):
    return Kind(message, 0.008, IMPUTED, (name,), lambda h: True, value(name, 9))


def rented(h):
    return h["H07_TENURE"] == 2


def dark(h):
    """A television without electricity."""
    return h["H11_LIGHT"] > 1 and h["H13_TV"] == 1


# What is told, and stays.
QUERIES = [Kind(416, 0.01, KEPT, (), lambda h: h["H11_LIGHT"] > 1, lambda dice, h: {"H13_TV": 1})]
# Of each of these lists a household has one error at most.
HOUSING = [
    [plain(401, "H01_DWELLING")], [plain(402, "H02_WALLS")], [plain(403, "H03_ROOF")], [plain(404, "H04_FLOOR")],
    [Kind(405, 0.008, IMPUTED, ("H05_ROOMS",), lambda h: True, value("H05_ROOMS", 0, 21)),
     Kind(406, 0.008, IMPUTED, ("H06_BEDROOMS",), lambda h: True, lambda dice, h: {"H06_BEDROOMS": h["H05_ROOMS"] + dice.between(1, 9)}),
     Kind(407, 0.008, IMPUTED, ("H06_BEDROOMS",), lambda h: True, value("H06_BEDROOMS", 99))],
    [Kind(408, 0.01, RESTORED, ("H07_TENURE",), rented, value("H07_TENURE", 7)),
     Kind(408, 0.01, IMPUTED, ("H07_TENURE",), lambda h: not rented(h), value("H07_TENURE", 0)),
     Kind(409, 0.01, RESTORED, (), lambda h: not rented(h), lambda dice, h: {"H08_RENT": "00100.00"}),
     Kind(410, 0.02, IMPUTED, ("H08_RENT_WHOLE",), rented, value("H08_RENT", "?", "00250"))],
    [plain(411, "H09_WATER")], [plain(412, "H10_TOILET")],
    [Kind(413, 0.008, IMPUTED, ("H11_LIGHT",), lambda h: not dark(h), value("H11_LIGHT", 9))], [plain(414, "H12_FUEL")],
    [Kind(415, 0.02, RESTORED, (name,), lambda h, name=name: h[name] == 2, value(name, 3)) for name in ASSETS],
    [Kind(103, 0.01, RESTORED, (), lambda h: True, lambda dice, h: {"H14_PERSONS": h["H14_PERSONS"] + dice.between(1, 3)})],
    [Kind(104, 0.01, RESTORED, (), lambda h: True, lambda dice, h: {"H15_DEATHS": dice.between(4, 9)})],
]


def difficulty(dice, person):
    """An error of the difficulties: one without an answer, where there is none."""
    return {dice.one([name for name in DIFFICULTIES if person[name] == 1]): dice.one((None, 0, 7))}


PERSONS.append(Kind(251, 0.006, RESTORED, (), lambda p: any(p[name] == 1 for name in DIFFICULTIES), difficulty))


def spoil(dice, record, kinds, *of):
    """Draws at most one of these errors for a record, in whose values it is written. The kind, or None."""
    for kind in kinds:
        if kind.fits(record, *of) and dice.chance(kind.share):
            record |= kind.wrong(dice, record)
            return kind
    return None


def spoil_persons(dice, household):
    """Draws the errors of the persons. Their kinds by place, None for a person without."""
    found = [None] * len(household.persons)
    owns = [household.own(k + 1) for k in range(len(found))]
    untouchable = set()
    for k, person in enumerate(household.persons):
        found[k] = spoil(dice, person, RELATIONS, household)
        if found[k]:
            untouchable = {0, 1, k}
            break
    for k, person in enumerate(household.persons):
        if k in untouchable:
            continue
        own = owns[k]
        if own and not untouchable & set(own):
            found[k] = spoil(dice, person, MOTHERS)
        if found[k]:
            untouchable |= set(own)
            if found[k].message == 309:
                person[ALIVE] = len(own) - 1
        else:
            found[k] = spoil(dice, person, PERSONS)
    return found
