"""Timetables to look at, and pages read back.
  pages.py plan INSTANCE SOLUTION    a plain timetable: each patient on the first day of the window in the rooms in turn
  pages.py greatest INSTANCE         an instance of the greatest sizes
  pages.py read INSTANCE SOLUTION PAGE [OLDER]    compares the page's data with a plain program's"""
import json, random, sys
import board


def greatest():
    """An instance of the greatest sizes, in which the stays are of usual length."""
    pick = random.Random(2).randrange
    days, types = 56, ["early", "late", "night"]
    def person(i, kind):
        stay = 1 + pick(8)
        return {"id": "%s%d" % (kind, i), "gender": "AB"[pick(2)], "age_group": "g%d" % pick(6), "length_of_stay": stay,
                "workload_produced": [1 + pick(3)] * 3 * stay, "skill_level_required": [pick(3)] * 3 * stay}
    def patient(i):
        return dict(person(i, "p"), mandatory=False, surgery_release_day=pick(days), surgery_duration=30 + 30 * pick(5),
                    surgeon_id="s%d" % pick(128), incompatible_room_ids=["r%d" % pick(128)])
    return {
        "days": days, "skill_levels": 3, "shift_types": types, "age_groups": ["g%d" % i for i in range(6)],
        "weights": {"room_mixed_age": 5, "room_nurse_skill": 1, "continuity_of_care": 1, "nurse_eccessive_workload": 1,
                    "open_operating_theater": 30, "surgeon_transfer": 5, "patient_delay": 10, "unscheduled_optional": 150},
        "surgeons": [{"id": "s%d" % i, "max_surgery_time": [240] * days} for i in range(128)],
        "operating_theaters": [{"id": "t%d" % i, "availability": [480] * days} for i in range(64)],
        "rooms": [{"id": "r%d" % i, "capacity": 2 + pick(3)} for i in range(128)],
        "nurses": [{"id": "n%d" % i, "skill_level": pick(3), "working_shifts": [
            {"day": d, "shift": types[(i + d) % 4], "max_load": 5 + pick(11)} for d in range(days) if (i + d) % 4 < 3]}
            for i in range(512)],
        "occupants": [dict(person(i, "o"), room_id="r%d" % (i % 128)) for i in range(512)],
        "patients": [patient(i) for i in range(2048)],
    }


def plan(inst):
    """A plain timetable, which may break rules."""
    rooms, theatres = [r["id"] for r in inst["rooms"]], [t["id"] for t in inst["operating_theaters"]]
    patients = []
    for i, p in enumerate(inst["patients"]):
        stay = "none"
        if theatres and p["surgery_release_day"] < inst["days"] and i % 9 != 8:
            stay = p["surgery_release_day"]
        patients.append({"id": p["id"], "admission_day": stay, "room": rooms[i % len(rooms)],
                         "operating_theater": theatres[i % len(theatres)]} if stay != "none" else
                        {"id": p["id"], "admission_day": "none"})
    given = {}
    for d in range(inst["days"]):
        for shift in inst["shift_types"]:
            working = [n["id"] for n in inst["nurses"] if any(w["day"] == d and w["shift"] == shift for w in n["working_shifts"])]
            for i, r in enumerate(rooms):
                if working:
                    given.setdefault(working[i % len(working)], {}).setdefault((d, shift), []).append(r)
    nurses = [{"id": n["id"], "assignments": [{"day": d, "shift": s, "rooms": rs} for (d, s), rs in given.get(n["id"], {}).items()]}
              for n in inst["nurses"]]
    return {"patients": patients, "nurses": nurses}


def data_in(text):
    """The data that stands in a page."""
    begin, end = '<script type="application/json" id="data">', "</script>"
    assert text.count(begin) == 1, "the data stands once"
    written = text.split(begin)[1].split(end)[0]
    assert not set(written) & set("<>&\u2028\u2029"), "a sign isn't escaped"
    return json.loads(written)


def read(instance, solution, page, older=None):
    """Compares a page's data with what a plain program finds in the files."""
    with open(page, encoding="utf-8") as file:
        found = data_in(file.read())
    wanted = board.data(instance, solution, since=older)
    wanted["heading"], wanted["first"] = found["heading"], found["first"]
    waits = found["plan"]["waits"]
    assert [i for i, _ in waits] == [i for i, at in enumerate(found["plan"]["stays"]) if at is None], "who waits differs"
    wanted["plan"]["waits"] = wanted["plan"]["waits"] or waits
    for key in wanted:
        assert found[key] == wanted[key], "%s differs" % key
    print("rooms %d, persons %d, findings %d, cost %d" % (
        len(wanted["plan"]["care"]), sum(map(len, wanted["instance"]["persons"].values())),
        sum(len(found) for lists in wanted["findings"].values() for found in lists), wanted["bill"]["cost"]))


if __name__ == "__main__":
    if sys.argv[1] == "plan":
        json.dump(plan(json.load(open(sys.argv[2]))), open(sys.argv[3], "w"))
    elif sys.argv[1] == "greatest":
        json.dump(greatest(), open(sys.argv[2], "w"))
    else:
        read(*sys.argv[2:6])
