#!/usr/bin/env python3
"""The data of a page by a plain program, from the instance and the timetables alone, to compare with the proved one.
    board.py INSTANCE SOLUTION PAGE [--from DATE] [--since OLDER] [--title TEXT]   writes a page with this data"""
import argparse, collections, json, os

TEMPLATE = os.path.join(os.path.dirname(os.path.abspath(__file__)), "..", "web", "board.html")
WEIGHTS = ["room_mixed_age", "room_nurse_skill", "continuity_of_care", "nurse_eccessive_workload", "open_operating_theater",
           "surgeon_transfer", "patient_delay", "unscheduled_optional"]
STAY, ROOM_DAY, THEATRE_DAY, SURGEON_DAY, ROOM_SHIFT, NURSE_SHIFT, CARE = range(7)


def read(path):
    with open(path, encoding="utf-8") as file:
        return json.load(file)


class Ward:
    """An instance, with the numbers of its names."""

    def __init__(self, inst):
        self.inst, self.days = inst, inst["days"]
        numbers = lambda key: {item["id"]: i for i, item in enumerate(inst[key])}
        self.rooms, self.theatres, self.surgeons = numbers("rooms"), numbers("operating_theaters"), numbers("surgeons")
        self.nurses = numbers("nurses")
        self.ages = {name: i for i, name in enumerate(inst["age_groups"])}
        self.shifts = {name: i for i, name in enumerate(inst["shift_types"])}
        given = inst["weights"]
        self.weights = [given[name] if name in given else given["nurse_excessive_workload"] for name in WEIGHTS]
        self.most = [{(3 * w["day"] + self.shifts[w["shift"]]): w["max_load"] for w in n["working_shifts"]} for n in inst["nurses"]]

    def data(self):
        inst = self.inst
        return {
            "ages": inst["age_groups"], "days": self.days, "shifts": inst["shift_types"], "weights": self.weights,
            "persons": {"occupants": [{"person": self.person(x), "room": self.rooms[x["room_id"]]} for x in inst["occupants"]],
                        "patients": [self.patient(x) for x in inst["patients"]]},
            "places": {"rooms": [{"id": r["id"], "capacity": r["capacity"]} for r in inst["rooms"]],
                       "theatres": [{"id": t["id"], "minutes": t["availability"]} for t in inst["operating_theaters"]]},
            "staff": {"nurses": [{"id": n["id"], "skill": n["skill_level"],
                                  "shifts": [[w["day"], self.shifts[w["shift"]], w["max_load"]] for w in n["working_shifts"]]}
                                 for n in inst["nurses"]],
                      "surgeons": [{"id": s["id"], "minutes": s["max_surgery_time"]} for s in inst["surgeons"]]},
        }

    # Needs past the horizon aren't kept.
    def person(self, x):
        return {"age": self.ages[x["age_group"]], "gender": x["gender"], "id": x["id"], "stay": x["length_of_stay"],
                "loads": x["workload_produced"], "skills": x["skill_level_required"]}

    def patient(self, x):
        window = {"due": x.get("surgery_due_day") if x["mandatory"] else None, "mandatory": x["mandatory"], "release": x["surgery_release_day"]}
        return {"person": self.person(x), "minutes": x["surgery_duration"], "surgeon": self.surgeons[x["surgeon_id"]],
                "unsuited": [self.rooms[r] for r in x["incompatible_room_ids"]], "window": window}


class Plan:
    """A timetable: each patient's stay, and each room's nurses."""

    def __init__(self, ward, solution):
        stays = {x["id"]: None if x["admission_day"] == "none" else
                 [x["admission_day"], ward.rooms[x["room"]], ward.theatres[x["operating_theater"]]] for x in solution["patients"]}
        self.stays = [stays.get(x["id"]) for x in ward.inst["patients"]]
        self.care = [[None] * (3 * ward.days) for _ in ward.rooms]
        for nurse in solution["nurses"]:
            for given in nurse["assignments"]:
                for room in given["rooms"]:
                    self.care[ward.rooms[room]][3 * given["day"] + ward.shifts[given["shift"]]] = ward.nurses[nurse["id"]]


Guest = collections.namedtuple("Guest", "number given room first after")


def guests(ward, plan):
    """Who is there: patients first, then occupants."""
    found = [Guest(i, x, plan.stays[i][1], plan.stays[i][0], plan.stays[i][0] + x["length_of_stay"])
             for i, x in enumerate(ward.inst["patients"]) if plan.stays[i]]
    return found + [Guest(len(ward.inst["patients"]) + i, x, ward.rooms[x["room_id"]], 0, x["length_of_stay"])
                    for i, x in enumerate(ward.inst["occupants"])]


class Findings:
    """The amounts by number of the bill, in the order of the cells."""

    def __init__(self, ward, plan):
        self.rules, self.costs = [[] for _ in range(9)], [[] for _ in range(8)]
        self.ward, self.plan, self.there = ward, plan, guests(ward, plan)
        self.in_room = [[g for g in self.there if g.room == r] for r in range(len(ward.rooms))]
        for part in (self.stays, self.room_days, self.theatre_days, self.surgeon_days, self.room_shifts, self.nurse_shifts, self.cares):
            part()

    def note(self, kind, row, column, rules=(), costs=()):
        for lists, found in ((self.rules, rules), (self.costs, costs)):
            for number, amount in found:
                if amount:
                    lists[number].append([int(amount), kind, row, column])

    def stays(self):
        for i, x in enumerate(self.ward.inst["patients"]):
            at, due = self.plan.stays[i], x["surgery_due_day"] if x["mandatory"] else None
            early = at is not None and at[0] < x["surgery_release_day"]
            late = at is not None and due is not None and at[0] > due
            unsuited = at is not None and at[1] in [self.ward.rooms[r] for r in x["incompatible_room_ids"]]
            self.note(STAY, i, 0, [(1, unsuited), (4, at is None and x["mandatory"]), (5, early or late)],
                      [(6, max(0, at[0] - x["surgery_release_day"]) if at else 0), (7, at is None and not x["mandatory"])])

    def inside(self, room, day):
        return [g for g in self.in_room[room] if g.first <= day < g.after]

    def room_days(self):
        for r, room in enumerate(self.ward.inst["rooms"]):
            for d in range(self.ward.days):
                inside = self.inside(r, d)
                ages = [self.ward.ages[g.given["age_group"]] for g in inside]
                self.note(ROOM_DAY, r, d, [(0, len({g.given["gender"] for g in inside}) > 1), (6, max(0, len(inside) - room["capacity"]))],
                          [(0, max(ages) - min(ages) if ages else 0)])

    def operated(self, day, of):
        return [(i, x) for i, x in enumerate(self.ward.inst["patients"]) if self.plan.stays[i] and self.plan.stays[i][0] == day and of(i, x)]

    def theatre_days(self):
        for t, theatre in enumerate(self.ward.inst["operating_theaters"]):
            for d in range(self.ward.days):
                found = self.operated(d, lambda i, x: self.plan.stays[i][2] == t)
                self.note(THEATRE_DAY, t, d, [(3, max(0, sum(x["surgery_duration"] for _, x in found) - theatre["availability"][d]))],
                          [(4, bool(found))])

    def surgeon_days(self):
        for s, surgeon in enumerate(self.ward.inst["surgeons"]):
            for d in range(self.ward.days):
                found = self.operated(d, lambda i, x: x["surgeon_id"] == surgeon["id"])
                self.note(SURGEON_DAY, s, d, [(2, max(0, sum(x["surgery_duration"] for _, x in found) - surgeon["max_surgery_time"][d]))],
                          [(5, max(0, len({self.plan.stays[i][2] for i, _ in found}) - 1))])

    def room_shifts(self):
        for r in range(len(self.plan.care)):
            for k, nurse in enumerate(self.plan.care[r]):
                inside = self.inside(r, k // 3)
                missing = 0 if nurse is None else sum(
                    max(0, g.given["skill_level_required"][k - 3 * g.first] - self.ward.inst["nurses"][nurse]["skill_level"]) for g in inside)
                self.note(ROOM_SHIFT, r, k, [(7, nurse is not None and k not in self.ward.most[nurse]), (8, bool(inside) and nurse is None)],
                          [(1, missing)])

    def nurse_shifts(self):
        loads = collections.Counter()
        for g in self.there:
            for k in range(3 * g.first, min(3 * g.after, 3 * self.ward.days)):
                loads[self.plan.care[g.room][k], k] += g.given["workload_produced"][k - 3 * g.first]
        for n, most in enumerate(self.ward.most):
            for k in range(3 * self.ward.days):
                self.note(NURSE_SHIFT, n, k, costs=[(3, max(0, loads[n, k] - most[k]) if k in most else 0)])

    def cares(self):
        for g in self.there:
            seen = set(self.plan.care[g.room][3 * g.first:3 * g.after]) - {None}
            self.note(CARE, g.number, 0, costs=[(2, len(seen))])


def bill(ward, findings):
    total = lambda lists: [sum(found[0] for found in each) for each in lists]
    costs = total(findings.costs)
    return {"cost": sum(x * w for x, w in zip(costs, ward.weights)), "costs": costs, "rules": total(findings.rules)}


MOST_TRIED, HARD = 3000, 1_000_000


def admissions(ward, x):
    """The stays that a patient may get, in the order in which they are tried."""
    last = min(x["surgery_due_day"] if x["mandatory"] else ward.days - 1, ward.days - 1)
    rooms = [r for name, r in ward.rooms.items() if name not in x["incompatible_room_ids"]]
    return [[d, r, t] for d in range(x["surgery_release_day"], last + 1) for r in rooms for t in range(len(ward.theatres))]


def waits(ward, plan):
    """Who waits, each with the cheapest admission: by trying all, or nothing where these are too many."""
    out = [i for i, at in enumerate(plan.stays) if at is None]
    tried = {i: admissions(ward, ward.inst["patients"][i]) for i in out}
    if sum(map(len, tried.values())) > MOST_TRIED:
        return None
    before, found = bill(ward, Findings(ward, plan)), []
    for i in out:
        least = None
        for at in tried[i]:
            plan.stays[i] = at
            after = bill(ward, Findings(ward, plan))
            more = [now - was for now, was in zip(after["rules"], before["rules"])]
            cost = after["cost"] - before["cost"]
            if least is None or HARD * sum(more) + cost < least[0]:
                least = (HARD * sum(more) + cost, {"broken": sum(n for n in more if n > 0), "cost": cost, "place": at})
        plan.stays[i] = None
        found.append([i, least and least[1]])
    return found


def changes(ward, plan, older):
    return {"bill": bill(ward, Findings(ward, older)),
            "patients": [[i, was] for i, (was, now) in enumerate(zip(older.stays, plan.stays)) if was != now],
            "shifts": [[[k, was] for k, (was, now) in enumerate(zip(olds, news)) if was != now] for olds, news in zip(older.care, plan.care)]}


def data(instance, solution, first=None, since=None, title=None):
    """The data of the page that `view` with these words writes."""
    ward = Ward(read(instance))
    plan = Plan(ward, read(solution))
    findings = Findings(ward, plan)
    return {
        "bill": bill(ward, findings), "instance": ward.data(),
        "plan": {"care": plan.care, "stays": plan.stays, "waits": waits(ward, plan) or []},
        "changes": changes(ward, plan, Plan(ward, read(since))) if since else None,
        "findings": {"costs": findings.costs, "rules": findings.rules},
        "first": [int(part) for part in first.split("-")] if first else None,
        "heading": {"instance": instance, "older": since, "solution": solution, "title": instance if title is None else title},
    }


def text(value):
    out = json.dumps(value, ensure_ascii=False, separators=(",", ":"), sort_keys=True)
    for sign in "<>&\u2028\u2029":
        out = out.replace(sign, "\\u%04x" % ord(sign))
    return out


if __name__ == "__main__":
    parser = argparse.ArgumentParser(description=__doc__, formatter_class=argparse.RawDescriptionHelpFormatter)
    parser.add_argument("instance"), parser.add_argument("solution"), parser.add_argument("page")
    parser.add_argument("--from", dest="first"), parser.add_argument("--since"), parser.add_argument("--title")
    given = parser.parse_args()
    with open(TEMPLATE, encoding="utf-8") as template, open(given.page, "w", encoding="utf-8") as page:
        page.write(template.read().replace("@@DATA@@", text(data(given.instance, given.solution, given.first, given.since, given.title))))
