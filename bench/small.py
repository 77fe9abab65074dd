"""Small instances, and the best timetable of each by trying all."""
import itertools, random

TYPES = ["early", "late", "night"]
KEYS = ["room_mixed_age", "room_nurse_skill", "continuity_of_care", "nurse_eccessive_workload",
        "open_operating_theater", "surgeon_transfer", "patient_delay", "unscheduled_optional"]


def small(number):
    """An instance of a day or two, so small that all its timetables can be tried."""
    pick = random.Random(number).randrange
    days, rooms = (1, 2) if pick(2) else (2, 1)
    def person(kind, i, stay):
        return {"id": "%s%d" % (kind, i), "gender": "AB"[pick(3) // 2], "age_group": "g%d" % pick(2),
                "length_of_stay": stay, "workload_produced": [pick(3) for _ in range(3 * stay)],
                "skill_level_required": [pick(3) for _ in range(3 * stay)]}
    def patient(i):
        one = person("p", i, 1 + pick(2))
        release = pick(days)
        one.update(mandatory=pick(3) == 0, surgery_release_day=release, surgery_duration=30 + 30 * pick(3),
                   surgeon_id="s0", incompatible_room_ids=["r%d" % r for r in range(rooms) if pick(5) == 0])
        if one["mandatory"]:
            one["surgery_due_day"] = min(days - 1, release + pick(2))
        return one
    def nurse(i):
        worked = [{"day": d, "shift": s, "max_load": pick(5)} for d in range(days) for s in TYPES if i == 0 or pick(4)]
        return {"id": "n%d" % i, "skill_level": pick(3), "working_shifts": worked}
    occupants = [dict(person("o", 0, 1), room_id="r0")] if pick(3) == 0 else []
    open_for = lambda: [60 + 60 * pick(3) for _ in range(days)]
    return {
        "days": days, "skill_levels": 3, "shift_types": TYPES, "age_groups": ["g0", "g1"],
        "weights": {key: pick(20) * pick(2) for key in KEYS},
        "surgeons": [{"id": "s0", "max_surgery_time": open_for()}],
        "operating_theaters": [{"id": "t%d" % t, "availability": open_for()} for t in range(1 + pick(2))],
        "rooms": [{"id": "r%d" % r, "capacity": 1 + pick(2)} for r in range(rooms)],
        "nurses": [nurse(i) for i in range(2)], "occupants": occupants,
        "patients": [patient(i) for i in range(2 + pick(2))],
    }


def persons_in(inst, stays):
    """Who is where: the person, the first day and the room."""
    there = [(o, 0, int(o["room_id"][1:])) for o in inst["occupants"]]
    return there + [(p, stay[0], stay[1]) for p, stay in zip(inst["patients"], stays) if stay]


def days_of(inst, person, first):
    return range(first, min(inst["days"], first + person["length_of_stay"]))


def there_on(inst, stays, room, day):
    return [p for p, first, at in persons_in(inst, stays) if at == room and day in days_of(inst, p, first)]


def keeps_rules(inst, stays):
    """The stays of patients keep the rules V1 to V7."""
    minutes = {}
    for p, stay in zip(inst["patients"], stays):
        if not stay:
            if p["mandatory"]:
                return False
            continue
        day, room, theatre = stay
        if "r%d" % room in p["incompatible_room_ids"]:
            return False
        if not p["surgery_release_day"] <= day <= p.get("surgery_due_day", 99):
            return False
        for key in (p["surgeon_id"], "t%d" % theatre):
            minutes[key, day] = minutes.get((key, day), 0) + p["surgery_duration"]
    limits = {(s["id"], d): m for s in inst["surgeons"] for d, m in enumerate(s["max_surgery_time"])}
    limits.update({(t["id"], d): m for t in inst["operating_theaters"] for d, m in enumerate(t["availability"])})
    if any(m > limits[key] for key, m in minutes.items()):
        return False
    for r, room in enumerate(inst["rooms"]):
        for d in range(inst["days"]):
            there = there_on(inst, stays, r, d)
            if len(there) > room["capacity"] or len({p["gender"] for p in there}) > 1:
                return False
    return True


def cost_of_stays(inst, stays):
    """S1 and S5 to S8."""
    w = inst["weights"]
    cost = 0
    for r in range(len(inst["rooms"])):
        for d in range(inst["days"]):
            ages = [int(p["age_group"][1:]) for p in there_on(inst, stays, r, d)]
            cost += w["room_mixed_age"] * (max(ages) - min(ages)) if ages else 0
    opened = {(stay[2], stay[0]) for stay in stays if stay}
    used = {(p["surgeon_id"], stay[0], stay[2]) for p, stay in zip(inst["patients"], stays) if stay}
    days = {(surgeon, day) for surgeon, day, _ in used}
    cost += w["open_operating_theater"] * len(opened) + w["surgeon_transfer"] * (len(used) - len(days))
    for p, stay in zip(inst["patients"], stays):
        if stay:
            cost += w["patient_delay"] * (stay[0] - p["surgery_release_day"])
        else:
            cost += w["unscheduled_optional"]
    return cost


def cost_of_care(inst, stays, given):
    """S2 to S4, where `given` has the nurse of each occupied room in each shift."""
    w = inst["weights"]
    cost, load = 0, {}
    for p, first, room in persons_in(inst, stays):
        seen = set()
        for d in days_of(inst, p, first):
            for s in range(3):
                n, k = given[room, 3 * d + s], 3 * d + s
                need = 3 * (d - first) + s
                seen.add(n)
                missing = p["skill_level_required"][need] - inst["nurses"][n]["skill_level"]
                cost += w["room_nurse_skill"] * max(0, missing)
                load[n, k] = load.get((n, k), 0) + p["workload_produced"][need]
        cost += w["continuity_of_care"] * len(seen)
    most = {(n, 3 * one["day"] + TYPES.index(one["shift"])): one["max_load"]
            for n, nurse in enumerate(inst["nurses"]) for one in nurse["working_shifts"]}
    return cost + w["nurse_eccessive_workload"] * sum(max(0, sum_ - most[key]) for key, sum_ in load.items())


def best(inst):
    """The cost of the best feasible timetable, or None where there is none."""
    works = {}
    for n, nurse in enumerate(inst["nurses"]):
        for one in nurse["working_shifts"]:
            works.setdefault(3 * one["day"] + TYPES.index(one["shift"]), []).append(n)
    places = [None] + [(d, r, t) for d in range(inst["days"]) for r in range(len(inst["rooms"]))
                       for t in range(len(inst["operating_theaters"]))]
    least = None
    for stays in itertools.product(places, repeat=len(inst["patients"])):
        if not keeps_rules(inst, stays):
            continue
        cells = sorted({(room, 3 * d + s) for p, first, room in persons_in(inst, stays)
                        for d in days_of(inst, p, first) for s in range(3)})
        fixed = cost_of_stays(inst, stays)
        if least is not None and fixed >= least:
            continue
        for nurses in itertools.product(*[works.get(k, []) for _, k in cells]):
            cost = fixed + cost_of_care(inst, stays, dict(zip(cells, nurses)))
            least = cost if least is None else min(least, cost)
    return least
