"""Households as they are, without an error: records of values by item name."""
import random
from dataclasses import dataclass, field

CENSUS = 2024 * 12 + 8  # the month of the reference night
NAMES = "ANNA PETER MIA TOM JOSÉ LUCIA OMAR SARA ALI BELA DANA IVAN RUTH NOAH ZOÉ KARIM".split()
OCCUPATIONS = {1: (61, 62, 63), 2: (72, 75, 93, 41), 3: (71, 93), 4: (52, 95, 14), 5: (23, 41, 51, 91)}
LEAST = 17  # years between a child and its mother, or the head


class Dice:
    """Draws by `random()` alone, whose sequence is the same in every version of Python."""

    def __init__(self, seed):
        self.random = random.Random(seed).random

    def below(self, count):
        return int(self.random() * count)

    def between(self, least, most):
        return least + self.below(most - least + 1)

    def one(self, values):
        return values[self.below(len(values))]

    def chance(self, share):
        return self.random() < share


@dataclass
class Household:
    """The values of each record; `mothers` are lines of mothers, also of those above 17."""

    ids: dict
    housing: dict = field(default_factory=dict)
    persons: list = field(default_factory=list)
    deaths: list = field(default_factory=list)
    mothers: list = field(default_factory=list)

    def has_spouse(self):
        return any(person["P03_REL"] == 2 for person in self.persons)

    def own(self, line):
        """The places of the persons below 18 whose mother has this line."""
        return [k for k, person in enumerate(self.persons) if person["P12_MOTHER"] == line]


def ids_of(k, count):
    """The ids of household k: four provinces one after the other, areas of 100 households, 20 districts at most."""
    province, first = k * 4 // count, -(-(k * 4 // count) * count // 4)
    area, number = divmod(k - first, 100)
    district, area = divmod(area, max(2, count // 4 // 100 // 19))
    return {"PROVINCE": province + 1, "DISTRICT": district + 1, "EA": area + 1, "HOUSEHOLD": number + 1}


def date(prefix, month):
    return {f"{prefix}_YEAR": (month - 1) // 12, f"{prefix}_MONTH": (month - 1) % 12 + 1}


def person(dice, relation, sex, age, marital, mother=None):
    """A person without schooling, work and children."""
    values = {"P02_NAME": dice.one(NAMES), "P03_REL": relation, "P04_SEX": sex, "P05_AGE": age}
    values |= date("P06_BIRTH", CENSUS - 12 * age - dice.below(12))
    values |= {"P07_BIRTHPLACE": dice.one((1, 2, 3, 4, 90)), "P08_RESIDENCE": dice.between(1, 4) if age >= 5 else None}
    values |= {"P09_RELIGION": dice.between(1, 4), "P10_LANGUAGE": dice.one((1, 2, 3, 4, 11))}
    for name in ("SEEING", "HEARING", "WALKING", "MEMORY", "CARE", "SPEECH"):
        values[f"P11_{name}"] = dice.between(2, 4) if dice.chance(0.02 + age / 1000) else 1
    values["P12_MOTHER"] = mother if age < 18 else None
    values["P16_MARITAL"] = marital if age >= 12 else None
    return values


def schooling(dice, age):
    attend = grade = literate = None
    if age >= 5:
        draw = dice.random()
        never, attends = (0.05, 0.9) if age < 18 else (0.15, 0.25 if age < 25 else 0)
        attend = 1 if draw < never else 2 if draw < never + attends else 3
        if attend > 1:
            grade = min(18, dice.between(max(0, age - 7), age - 5)) if attend == 2 else dice.between(0, min(14, age - 5))
    if age >= 10:
        literate = 1 if (grade or 0) >= 5 or dice.chance(0.6 if attend > 1 else 0.1) else 2
    return {"P13_ATTEND": attend, "P14_GRADE": grade, "P15_LITERACY": literate}


def work(dice, age):
    if age < 10:
        return {"P17_WORK": None}
    working = 0.03 if age < 15 else 0.6 if age < 65 else 0.2
    if not dice.chance(working):
        return {"P17_WORK": 2 if 15 <= age < 65 and dice.chance(0.2) else 3}
    industry = dice.between(1, 5)
    status = dice.between(1, 4)
    income = None if status == 4 else f"{dice.between(100, 9999):06}.{dice.below(4) * 25:02}"
    return {"P17_WORK": 1, "P18_OCCUPATION": dice.one(OCCUPATIONS[industry]), "P19_INDUSTRY": industry, "P20_STATUS": status,
            "P21_INCOME": income}


def children(dice, household, k):
    """What a woman of 12 and more tells of the children she had."""
    mother = household.persons[k]
    own = [child for child, line in zip(household.persons, household.mothers) if line == k + 1]
    age = mother["P05_AGE"]
    alive = len(own) + (dice.below(3) if age >= 30 and mother["P16_MARITAL"] > 1 else 0)
    born = alive + (1 if alive and dice.chance(0.15) else 0)
    told = {"P22_BORN": born, "P23_ALIVE": alive}
    if own:
        youngest = max((child["P06_BIRTH_YEAR"], child["P06_BIRTH_MONTH"]) for child in own)
        told |= {"P24_LAST_YEAR": youngest[0], "P24_LAST_MONTH": youngest[1]}
    elif born:
        birth = mother["P06_BIRTH_YEAR"] * 12 + mother["P06_BIRTH_MONTH"]
        told |= date("P24_LAST", dice.between(birth + 12 * LEAST, min(CENSUS, birth + 12 * 40)))
    return told


def couple(dice, household):
    """The head, and perhaps a spouse. The line of the woman among them, or 0."""
    age, sex = dice.between(20, 80), 1 if dice.chance(0.7) else 2
    married = dice.chance(0.75 if sex == 1 else 0.2)
    alone = 4 if age > 60 else dice.one((1, 3, 4))
    household.persons.append(person(dice, 1, sex, age, 2 if married else alone))
    if married:
        household.persons.append(person(dice, 2, 3 - sex, max(18, age + dice.between(-8, 5)), 2))
    return 1 if sex == 2 else 2 if married else 0


def descendants(dice, household, woman):
    """Children of the head and of the woman of the couple; a grandchild, whose mother is a daughter or not here."""
    persons = household.persons
    eldest = min(member["P05_AGE"] for member in persons) - LEAST
    ages = [dice.between(max(0, eldest - 25), eldest) for _ in range(dice.below(6)) if eldest >= 0]
    for age in sorted(ages, reverse=True):
        persons.append(person(dice, 3, dice.between(1, 2), age, 1 if age < 18 or dice.chance(0.8) else 3, woman))
        household.mothers += [0] * (len(persons) - len(household.mothers) - 1) + [woman]
    room = persons[0]["P05_AGE"] - 2 * LEAST
    if room >= 0 and dice.chance(0.12):
        age = dice.below(min(room, 20) + 1)
        able = [k + 1 for k, it in enumerate(persons) if it["P03_REL"] == 3 and it["P04_SEX"] == 2 and it["P05_AGE"] >= age + LEAST]
        mother = dice.one(able) if able else 0
        persons.append(person(dice, 5, dice.between(1, 2), age, 1, mother))
        household.mothers += [0] * (len(persons) - len(household.mothers) - 1) + [mother]


def others(dice, household):
    persons = household.persons
    head_age = persons[0]["P05_AGE"]
    if head_age <= 80 and dice.chance(0.08):
        persons.append(person(dice, 4, dice.between(1, 2), min(105, head_age + dice.between(LEAST, 35)), 4))
    if dice.chance(0.2):
        age = dice.below(80)
        persons.append(person(dice, 6, dice.between(1, 2), age, 1 if age < 30 else dice.between(1, 4), 0))
    if dice.chance(0.06):
        persons.append(person(dice, 7, dice.between(1, 2), dice.between(15, 60), 1, 0))
    household.mothers += [0] * (len(persons) - len(household.mothers))


def death(dice, line):
    sex, age = dice.between(1, 2), dice.between(0, 95)
    values = {"D01_LINE": line, "D02_SEX": sex, "D03_AGE": age, **date("D04", CENSUS - dice.below(12))}
    values["D05_YEAR"] = values.pop("D04_YEAR")
    values["D06_MATERNAL"] = (1 if dice.chance(0.1) else 2) if sex == 2 and 12 <= age <= 49 else None
    return values | {"D07_REGISTERED": dice.between(1, 2)}


def housing(dice, household):
    light, rooms, tenure = dice.between(1, 3), dice.between(1, 8), dice.one((1, 1, 2, 3))
    values = {"H01_DWELLING": dice.between(1, 4), "H02_WALLS": dice.between(1, 4), "H03_ROOF": dice.between(1, 3)}
    values |= {"H04_FLOOR": dice.between(1, 3), "H05_ROOMS": rooms, "H06_BEDROOMS": dice.below(rooms + 1), "H07_TENURE": tenure}
    values["H08_RENT"] = f"{dice.between(50, 999):05}.{dice.below(4) * 25:02}" if tenure == 2 else None
    values |= {"H09_WATER": dice.between(1, 5), "H10_TOILET": dice.between(1, 3), "H11_LIGHT": light, "H12_FUEL": dice.between(1, 4)}
    values |= {f"H13_{name}": dice.between(1, 2) for name in ("RADIO", "TV", "PHONE", "BICYCLE", "CAR")}
    if light > 1:
        values["H13_TV"] = 2
    return values | {"H14_PERSONS": len(household.persons), "H15_DEATHS": len(household.deaths)}


def household(dice, k, count):
    """Household k of so many."""
    it = Household(ids_of(k, count))
    woman = couple(dice, it)
    descendants(dice, it, woman)
    others(dice, it)
    for place, member in enumerate(it.persons):
        member["P01_LINE"] = place + 1
        member |= schooling(dice, member["P05_AGE"]) | work(dice, member["P05_AGE"])
        if member["P04_SEX"] == 2 and member["P05_AGE"] >= 12:
            member |= children(dice, it, place)
    it.deaths = [death(dice, line + 1) for line in range(2 if dice.chance(0.01) else 1 if dice.chance(0.08) else 0)]
    it.housing = housing(dice, it)
    return it
