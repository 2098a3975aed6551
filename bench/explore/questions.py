"""Random specifications with what is asked about them, and what brute force finds of their runs."""
from typing import NamedTuple

import model
import random_texts
from brute import Brute, Question


def first_holding(specification, terms):
    """The first of the terms that holds in the state in which runs begin, or the last one."""
    initial = specification.initial()
    holding = [term for term in terms if model.Step(specification, 1, []).term(term, {}, initial) == "true"]
    return [*holding, terms[-1]][0]


def question_of(chance):
    """A random specification and what is asked about it."""
    made = random_texts.Random(chance)
    specification = made.specification()
    turns = chance.choice([2, 3, 4, 6])
    always = within = None
    if chance.random() < 0.4:
        always = first_holding(specification, [made.term("truth", 2, {}) for _ in range(8)])
    if chance.random() < 0.25:
        within = first_holding(specification, [made.term("truth", 2, {}) for _ in range(2)])
    steps = chance.choice([1, 2, 3, 5, 9, 1000, 1000, 1000])
    return specification, Question(random_texts.text_of(specification, chance), steps, turns, always, within)


class Wish(NamedTuple):
    """What a random specification is to have: so many scripts and states, and steps."""

    scripts: int
    states: int
    depth: int

    def is_met(self, brute, less):
        """Whether it is, or nearly so where less is asked for."""
        scripts, states = sum(map(len, brute.steps.values())), sum(map(len, brute.levels))
        return scripts >= self.scripts >> less and states >= self.states >> less and brute.depth() >= self.depth - less


def wished(chance):
    return Wish(chance.choice([1, 4, 10, 25, 60, 150]), chance.choice([1, 3, 6, 10, 20]), chance.choice([1, 1, 2, 3, 4]))


def wanted(chance):
    """The runs of a random specification, or none where no good one was found."""
    wish, brute = wished(chance), None
    for tries in range(60):
        specification, question = question_of(chance)
        made = Brute(specification, question)
        if made.wrong_first and chance.random() < 0.98 or made.cut and not made.steps:
            continue
        brute = made
        if wish.is_met(brute, tries // 12):
            break
    if brute is not None and brute.bad is None and not brute.wrong_first and chance.random() < 0.4:
        planted = Brute(*plant(chance, brute))
        return brute if planted.cut and not planted.steps else planted
    return brute


def described(chance, brute):
    """A condition that holds in a state that is reached, and maybe in others."""
    levels = [level for level in brute.levels if level]
    key = chance.choice(chance.choice(levels[1:] or levels))
    facts = [(place, value) for place, value in zip(brute.places, key) if place[1] is not None]
    facts = chance.sample(facts, min(len(facts), chance.choice([1, 2, 2, 3])))
    terms = [("=", ("name", name, [("constant", one) for one in given]), ("constant", value)) for (name, given), value in facts]
    whole = terms[0]
    for term in terms[1:]:
        whole = ("and", whole, term)
    return whole


def plant(chance, brute):
    """The same with a fault where a state is reached: a step that goes wrong there, maybe under some scripts alone, or a condition that
    isn't true there; or without the runs from there."""
    test, (kind, how) = described(chance, brute), (chance.randrange(6), chance.random())
    specification, question = brute.specification, brute.question
    if kind == 0:
        return specification, question._replace(within=("not", test))
    if kind < 3:
        return specification, question._replace(always=("not", test))
    name = chance.choice(list(specification.controlled))
    domain = specification.controlled[name].domain
    arguments = [("constant", chance.choice(specification.universes[universe].values or [0])) for universe in domain]
    here = ("name", name, arguments)
    faulty = ("iterate", ("assign", here, ("constant", "undef")))
    if kind == 3:
        faulty = ("par", [("assign", here, ("constant", 7)), ("assign", here, ("constant", chance.choice(["undef", "true", 8])))])
    if kind == 4 and domain:
        faulty = ("assign", ("name", name, [*arguments[:-1], ("constant", 99)]), ("constant", 0))
    if how < 0.5:
        value = chance.choice(specification.universes["U"].values)
        faulty = ("choose", "i", "U", None, ("if", ("=", ("name", "i", []), ("constant", value)), faulty, None), None)
    main = specification.rules["M"].body
    body = (chance.choice(["par", "seq"]), chance.sample([main, ("if", test, faulty, None)], 2))
    rules = {**specification.rules, "M": model.Named([], body, f"rule M = {random_texts.told(body)}")}
    specification = specification._replace(rules=rules)
    return specification, question._replace(text=random_texts.text_of(specification, chance))
