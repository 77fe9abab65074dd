"""Instances for the benchmarks."""
import random


def generated(patients):
    """An instance of so many patients, with as many rooms, nurses, surgeons and theatres for each of them as the generated one of 400."""
    pick = random.Random(patients).randrange
    scale = lambda n: max(1, round(n * patients / 400))
    rooms, nurses, surgeons, theatres = scale(25), scale(50), scale(10), scale(5)
    types = ["early", "late", "night"]
    def needs(stay):
        return [1 + pick(3) for _ in range(3 * stay)], [pick(3) for _ in range(3 * stay)]
    def patient(i):
        stay = 1 + pick(6)
        work_, skill = needs(stay)
        release = pick(28)
        one = {"id": "p%d" % i, "mandatory": i % 20 == 0, "gender": "AB"[pick(2)], "age_group": "g%d" % pick(4), "length_of_stay": stay,
               "surgery_release_day": release, "surgery_duration": 30 + 30 * pick(4), "surgeon_id": "s%d" % pick(surgeons),
               "incompatible_room_ids": ["r%d" % pick(rooms)], "workload_produced": work_, "skill_level_required": skill}
        if one["mandatory"]:
            one["surgery_due_day"] = min(27, release + pick(8))
        return one
    return {
        "days": 28, "skill_levels": 3, "shift_types": types, "age_groups": ["g%d" % i for i in range(4)],
        "weights": {"room_mixed_age": 5, "room_nurse_skill": 10, "continuity_of_care": 5, "nurse_eccessive_workload": 1, "open_operating_theater": 30,
                    "surgeon_transfer": 10, "patient_delay": 10, "unscheduled_optional": 300},
        "surgeons": [{"id": "s%d" % i, "max_surgery_time": [480] * 28} for i in range(surgeons)],
        "operating_theaters": [{"id": "t%d" % i, "availability": [600] * 28} for i in range(theatres)],
        "rooms": [{"id": "r%d" % i, "capacity": 1 + pick(3)} for i in range(rooms)],
        "nurses": [{"id": "n%d" % n, "skill_level": pick(3),
                    "working_shifts": [{"day": d, "shift": types[(n + d) % 4], "max_load": 5 + pick(11)} for d in range(28) if (n + d) % 4 < 3]}
                   for n in range(nurses)],
        "occupants": [], "patients": [patient(i) for i in range(patients)],
    }


def full(patients):
    """A ward that is full: patients who all have to come, 4 rooms for two each, 6 nurses, and one surgeon with one operation a day."""
    one = generated(patients)
    types = one["shift_types"]
    for p in one["patients"]:
        p.update(mandatory=True, surgery_due_day=27, surgery_duration=60, surgeon_id="s0", incompatible_room_ids=[])
    one["surgeons"] = [{"id": "s0", "max_surgery_time": [60] * 28}]
    one["operating_theaters"] = [{"id": "t0", "availability": [60] * 28}]
    one["rooms"] = [{"id": "r%d" % i, "capacity": 2} for i in range(4)]
    one["nurses"] = [{"id": "n%d" % n, "skill_level": n % 3,
                      "working_shifts": [{"day": d, "shift": types[(n + d) % 4], "max_load": 5 + n * d % 11} for d in range(28) if (n + d) % 4 < 3]}
                     for n in range(6)]
    return one


def uniform(days, patients, occupants, rooms, nurses, surgeons, theatres, stay):
    """An instance of which all persons, rooms, surgeons and theatres are alike."""
    entries = 3 * min(stay, days)
    return {
        "days": days, "skill_levels": 3, "shift_types": TYPES, "age_groups": ["g%d" % i for i in range(64)],
        "weights": {key: 1 for key in WEIGHTS},
        "surgeons": [{"id": "s%d" % i, "max_surgery_time": [480] * days} for i in range(surgeons)],
        "operating_theaters": [{"id": "t%d" % i, "availability": [600] * days} for i in range(theatres)],
        "rooms": [{"id": "r%d" % i, "capacity": 4} for i in range(rooms)],
        "nurses": [{"id": "n%d" % i, "skill_level": i % 3,
                    "working_shifts": [{"day": d, "shift": TYPES[(i + d) % 3], "max_load": 10} for d in range(days)]}
                   for i in range(nurses)],
        "occupants": [{"id": "a%d" % i, "gender": "A", "age_group": "g0", "length_of_stay": stay,
                       "workload_produced": [1] * entries, "skill_level_required": [1] * entries,
                       "room_id": "r%d" % (i % rooms)} for i in range(occupants)],
        "patients": [{"id": "p%d" % i, "mandatory": False, "gender": "B", "age_group": "g1", "length_of_stay": stay,
                      "surgery_release_day": 0, "surgery_duration": 60, "surgeon_id": "s%d" % (i % surgeons),
                      "incompatible_room_ids": [], "workload_produced": [1] * entries,
                      "skill_level_required": [1] * entries} for i in range(patients)],
    }


def shaped(name):
    """An instance of usual size but for one thing: few rooms, many nurses, one surgeon, or weights times ten."""
    one = generated(400)
    if name == "few_rooms":
        one["rooms"] = [dict(room, capacity=4) for room in one["rooms"][:8]]
        for p in one["patients"]:
            p.update(mandatory=False, incompatible_room_ids=[])
            p.pop("surgery_due_day", None)
    elif name == "many_nurses":
        more = [dict(nurse, id="m%s" % nurse["id"]) for nurse in one["nurses"]]
        one["nurses"] += more + [dict(nurse, id="m%s" % nurse["id"]) for nurse in more]
    elif name == "one_surgeon":
        one["surgeons"] = [{"id": "s0", "max_surgery_time": [1440] * 28}]
        for p in one["patients"]:
            p["surgeon_id"] = "s0"
    elif name == "dear":
        one["weights"] = {key: 10 * weight for key, weight in one["weights"].items()}
    else:
        raise ValueError("no shape is called %s" % name)
    return one


WEIGHTS = {"room_mixed_age": 5, "room_nurse_skill": 10, "continuity_of_care": 2, "nurse_eccessive_workload": 1, "open_operating_theater": 30,
           "surgeon_transfer": 7, "patient_delay": 4, "unscheduled_optional": 100}
TYPES = ["early", "late", "night"]


def worked(days, more):
    """What the two worked examples of the tests share."""
    one = {"days": days, "skill_levels": 3, "shift_types": TYPES, "age_groups": ["child", "adult", "old"], "weights": WEIGHTS,
           "occupants": [], "patients": [], "surgeons": [], "operating_theaters": []}
    one.update(more)
    return one


def shifts(days, load):
    return [{"day": d, "shift": s, "max_load": load} for d in range(days) for s in TYPES]


def occupant(workload, skill):
    return {"id": "a0", "gender": "A", "age_group": "adult", "length_of_stay": 1, "workload_produced": workload, "skill_level_required": skill, "room_id": "r0"}


def one_room():
    """One room with an occupant, one nurse, one day, no patient."""
    return worked(1, {"occupants": [occupant([2, 1, 1], [1, 0, 2])], "rooms": [{"id": "r0", "capacity": 2}],
                      "nurses": [{"id": "n0", "skill_level": 1, "working_shifts": shifts(1, 2)}]})


def two_patients():
    """Two rooms, theatres, nurses and patients over two days; a room is crowded and a nurse overworked as soon as both patients come."""
    return worked(2, {
        "occupants": [occupant([1, 1, 1], [0, 0, 2])],
        "patients": [{"id": "p0", "mandatory": True, "gender": "A", "age_group": "old", "length_of_stay": 5, "surgery_release_day": 0,
                      "surgery_due_day": 1, "surgery_duration": 60, "surgeon_id": "s0", "incompatible_room_ids": ["r1"],
                      "workload_produced": [2] * 6, "skill_level_required": [0] * 6},
                     {"id": "p1", "mandatory": False, "gender": "B", "age_group": "child", "length_of_stay": 1, "surgery_release_day": 0,
                      "surgery_duration": 40, "surgeon_id": "s0", "incompatible_room_ids": [], "workload_produced": [1, 1, 1],
                      "skill_level_required": [2, 2, 2]}],
        "surgeons": [{"id": "s0", "max_surgery_time": [100, 100]}],
        "operating_theaters": [{"id": "t0", "availability": [60, 60]}, {"id": "t1", "availability": [60, 60]}],
        "rooms": [{"id": "r0", "capacity": 2}, {"id": "r1", "capacity": 1}],
        "nurses": [{"id": "n0", "skill_level": 0, "working_shifts": shifts(2, 3)}, {"id": "n1", "skill_level": 2, "working_shifts": shifts(2, 10)}]})
