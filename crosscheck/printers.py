"""Random profile texts: good ones, fleets of like printers, and broken ones."""

import copy
from dataclasses import dataclass, field
from random import Random
from typing import Dict, List, Tuple

from commands import KEYS
from samples import SAMPLES


@dataclass
class Draft:
    """A profile before it is written."""
    version: int = 1
    name: str = "X"
    lists: Dict[str, List[str]] = field(default_factory=dict)
    trays: List[int] = field(default_factory=lambda: [1, 2])
    duplex: int = 1
    depth: int = 2
    memory: int = 100
    geometry: Dict[Tuple[int, int], List[int]] = field(default_factory=dict)
    faces: List[List] = field(default_factory=list)


def sample_draft() -> Draft:
    """Like the first sample, with one value in each list."""
    draft = Draft(lists={"size": ["2"], "orientation": ["0"], "vmi": ["8"], "font": ["1"],
                         "copies": ["1"], "sides": ["0"], "tray": ["1"], "lineterm": ["0"]})
    draft.geometry = {
        (2, 0): [61200, 79200, 1800, 0, 57600, 79200, 1200, 1200, 60000, 78000],
        (2, 1): [79200, 61200, 1440, 0, 76320, 61200, 1200, 1200, 78000, 60000],
        (26, 0): [59520, 84168, 1704, 0, 56112, 84168, 1200, 1200, 58320, 82968],
        (26, 1): [84168, 59520, 1416, 0, 81336, 59520, 1200, 1200, 82968, 58320],
    }
    draft.faces = [
        [1, "10U", "10", "12", 0, 0, 3, 720, 900, 300, "33-126"],
        [2, "10U", "12", "10", 0, 0, 3, 600, 750, 250, "33-126"],
    ]
    return draft


def random_geometry(random: Random) -> List[int]:
    """A page whose edges lie near each other, so that jobs meet them soon."""
    width = random.randint(6000, 40000)
    height = random.randint(9000, 40000)
    lx, ly = random.choice([0, random.randint(0, 2000)]), random.choice([0, 300, 1200])
    lw = random.randint(max(0, width - lx - 3000), width - lx)
    lh = random.randint(max(7200, height - ly - 3000), height - ly)
    left, top = random.randint(0, 1500), random.randint(0, 1500)
    return [width, height, lx, ly, lw, lh, left, top,
            random.randint(width - 1500, width), random.randint(height - 1500, height)]


def random_face(random: Random, number: int) -> List:
    pitch = random.choice(["10", "12", "16.66", "10.5", "0.5", "65535"])
    codes = random.choice(["33-126", "33-126", "33-126,161-255", "65-90", "66-126",
                           "48-57,65-90,97-122", "33-255"])
    return [number, f"{random.choice([10, 8, 0, 65535])}{random.choice('UAWZ')}", pitch,
            random.choice(["12", "10", "8.5", "14.25"]), random.choice([0, 1, 32]),
            random.choice([0, 0, 3, -3, 7, -7]), random.choice([3, 4101, 65535]),
            random.choice([720, 600, 432, 1, 1000]), random.choice([900, 750, 0, 1200]),
            random.choice([300, 250, 0]), codes]


def vary_lists(random: Random, draft: Draft) -> None:
    """Several values in some lists."""
    sizes = sorted({str(size) for size, _ in draft.geometry})
    turns = sorted({str(turn) for _, turn in draft.geometry})
    choices = {
        "size": sizes, "orientation": turns,
        "vmi": ["8", "6", "7.5", "12", "0.0001", "16", "7.0005"],
        "font": [str(face[0]) for face in draft.faces],
        "copies": ["1", "2", "3", "32767"], "sides": ["0", "1", "2"] if draft.duplex else ["0"],
        "tray": [str(tray) for tray in draft.trays], "lineterm": ["0", "1", "2", "3"],
    }
    for key, values in choices.items():
        chance = random.random()
        if chance < 0.35:
            draft.lists[key] = [random.choice(values)]
        elif chance < 0.55:
            draft.lists[key] = random.sample(values, random.randint(1, min(3, len(values))))


def random_draft(random: Random) -> Draft:
    draft = sample_draft()
    if random.random() < 0.4:
        draft.version = 2
    if random.random() < 0.4:
        sizes = random.sample([2, 26, 1, 3, 999], random.randint(1, 3))
        turns = random.sample([0, 1, 2, 3], random.randint(1, 3))
        draft.geometry = {(size, turn): random_geometry(random)
                          for size in sizes for turn in turns}
        draft.lists["size"] = [str(sizes[0])]
        draft.lists["orientation"] = [str(turns[0])]
    if random.random() < 0.3:
        draft.faces = [random_face(random, number) for number in (1, 2, 7, 255)]
        seen = {tuple(map(str, face[1:7])): face for face in draft.faces}
        draft.faces = list(seen.values())
        draft.lists["font"] = [str(draft.faces[0][0])]
    if random.random() < 0.3:
        draft.trays = random.sample([1, 2, 3, 4, 255], random.randint(1, 4))
        draft.lists["tray"] = [str(draft.trays[0])]
    draft.duplex = random.choice([1, 1, 0])
    draft.depth = random.choice([2, 2, 2, 1, 3, 8, 0])
    draft.memory = random.choice([100, 100, 60, 300, 1000, 5000, 1048576, 0])
    if random.random() < 0.6:
        vary_lists(random, draft)
    return draft


def near_draft(random: Random, base: Draft) -> Draft:
    """A printer that may print the same as the base."""
    draft = copy.deepcopy(base)
    draft.name = random.choice(["Y", "Z", "other-printer"])
    change = random.randrange(8)
    if change == 0:
        draft.memory = random.choice([100, 80, 1000])
        draft.depth = random.choice([1, 2, 3])
    elif change == 1:
        random.choice(draft.faces)[7] = random.choice([700, 720, 600])
    elif change == 2:
        row = draft.geometry[random.choice(list(draft.geometry))]
        place = random.choice([2, 6, 7, 8, 9])
        row[place] = max(0, row[place] - random.choice([0, 1, 60]))
    elif change == 3:
        vary_lists(random, draft)
    elif change == 4:
        draft.trays = draft.trays + [9]
        draft.lists["tray"] = draft.lists["tray"] + ["9"]
    elif change == 5:
        random.choice(draft.faces)[10] = random.choice(["66-126", "33-126", "33-255"])
    elif change == 6:
        draft.version = 2
        draft.lists["lineterm"] = random.choice([["0"], ["0", "2"], ["3"]])
    return draft


def is_sound(draft: Draft) -> bool:
    """A change may have put an edge past another."""
    for width, height, lx, ly, lw, lh, left, top, right, bottom in draft.geometry.values():
        if lx + lw > width or ly + lh > height or left >= right or top >= bottom:
            return False
    return True


def write_draft(random: Random, draft: Draft) -> bytes:
    """The text, in any order of lines, at times with odd spaces and line ends."""
    keys = list(KEYS) if draft.version == 2 else list(KEYS)[:-1]
    lines = [f"{key} {' '.join(draft.lists[key])}" for key in keys]
    lines += [f"name {draft.name}", f"trays {' '.join(map(str, draft.trays))}",
              f"duplex {draft.duplex}", f"depth {draft.depth}", f"memory {draft.memory}"]
    for (size, turn), row in draft.geometry.items():
        lines.append(f"geometry {size} {turn} {' '.join(map(str, row))}")
    lines += [f"face {' '.join(map(str, face))}" for face in draft.faces]
    if random.random() < 0.3:
        random.shuffle(lines)
    lines.insert(0, f"pclprofile {draft.version}")
    if random.random() < 0.15:
        lines = [line.replace(" ", "  ") + random.choice(["", " "]) for line in lines]
    if random.random() < 0.15:
        lines[1:1] = random.choice([["# a note"], [""], ["   "], ["#", "", "#x"]])
    end = "\r\n" if random.random() < 0.1 else "\n"
    text = end.join(lines) + (end if random.random() < 0.9 else "")
    return text.encode()


EDGE_WORDS = ("0", "1", "2", "3", "4", "7", "8", "9", "16", "26", "126", "255", "256", "335",
              "336", "335.0001", "999", "1000", "7199", "7200", "32767", "32768", "50400",
              "50401", "65535", "65536", "65535.5", "720000", "720001", "1048576", "1048577",
              "0000000000000001", "00000000000000001", "9999999999999999", "1.5", "1.50000",
              "1.", ".5", "-1", "-0", "-7", "-8", "+1", "x", "10U", "10X", "10u", "U", "33-126",
              "32-126", "33-256", "65", "70-65", "33-40,40-50", "33-40,41-50", "33-40,", "1,2",
              "33-040", "9" * 33)


def edit_line(random: Random, line: str) -> str:
    words = line.split(" ")
    place = random.randrange(len(words))
    kind = random.randrange(7)
    if kind <= 2:
        words[place] = random.choice(EDGE_WORDS)
    elif kind == 3:
        words.insert(place + 1, random.choice(EDGE_WORDS + tuple(words[1:])))
    elif kind == 4:
        del words[place]
    elif kind == 5:
        words[0] = random.choice([words[0].upper(), "x", "sizes", "pclprofile", " #", "#",
                                  "lineterm", "tray", "geometry", "face", "\tsize"])
    else:
        words[-1] += random.choice(["\t", "\r", " ", " x", " 1", "0", ".0", "\x00"])
    return " ".join(words)


def edge_row(random: Random, line: str) -> str:
    """A geometry or face line with one number at an edge of what is right."""
    words = line.split(" ")
    step = random.choice([0, 0, 1, -1])
    if words[0] == "geometry" and len(words) == 13:
        numbers = [int(word) if word.isdigit() else 0 for word in words[1:]]
        width, height, lx, ly, lw, lh, left, top, right, bottom = numbers[2:]
        place, value = random.choice([
            (7, width - lx), (8, height - ly), (8, 7200), (9, right - 1), (9, right),
            (10, bottom), (11, left + 1), (11, left), (11, width), (12, top), (12, height),
            (3, lx + lw), (4, ly + lh), (7, 0), (3, 720000), (4, 720000)])
    elif words[0] == "face" and len(words) == 12:
        place, value = random.choice([(8, 1), (8, 50400), (9, 0), (9, 720000), (10, 720000),
                                      (1, 1), (1, 255), (5, 65535), (6, 7), (6, -7),
                                      (7, 65535), (4, 65535), (3, 65535)])
    else:
        return line
    if words[0] == "face" and random.random() < 0.2:
        place, value, step = 1, random.choice([3, 9, 254]), 0
    words[place] = str(value + step)
    return " ".join(words)


def long_list(random: Random) -> str:
    key = random.choice(["size", "copies", "vmi", "tray", "trays", "font"])
    count = random.choice([16, 17, 18])
    words = [str(number) for number in range(1, count + 1)]
    if random.random() < 0.3:
        words[-1] = random.choice(["1", "16", "0", "x"])
    return f"{key} {' '.join(words)}"


def break_text(random: Random, text: bytes) -> bytes:
    """The text with one or two changes that often make it faulty."""
    lines = text.decode("latin-1").split("\n")
    for _ in range(random.choice([1, 1, 2])):
        place = random.randrange(len(lines))
        kind = random.randrange(15)
        if kind >= 12:
            rows = [at for at, line in enumerate(lines) if line[:4] in ("geom", "face")]
            place = random.choice(rows or [place])
            row = edge_row(random, lines[place])
            lines[place:place + (random.random() < 0.8)] = [row]
        elif kind <= 4:
            lines[place] = edit_line(random, lines[place])
        elif kind == 5:
            del lines[place:place + 1]
            lines = lines or [""]
        elif kind == 6:
            lines.insert(random.randrange(len(lines) + 1), random.choice(lines))
        elif kind == 7:
            key = long_list(random)
            lines = [key if line.split(" ")[0] == key.split(" ")[0] else line
                     for line in lines]
        elif kind == 8:
            lines[0] = random.choice(["pclprofile 2", "pclprofile 1", "pclprofile 9",
                                      "pclprofile", "pclprofile 1 1", "# x", "", "name B",
                                      " pclprofile  2 ", "pclprofile 01", "PCLPROFILE 1"])
        elif kind == 9:
            lines.insert(random.randrange(len(lines) + 1), random.choice([
                "lineterm 0", "lineterm 0 2", "lineterm 4", "copies 1 1", "face 1",
                "geometry 2 0", "face 3 10U 10 12 0 0 3 0 900 300 33-126",
                "face 3 10U 10 12 0 0 4 0 900 300 33-126", "font 9", "tray 3", "sides 1",
                "geometry 7 0 61200 79200 1800 0 57600 79200 1200 1200 60000 78000",
                "size 2 3", "duplex 2", "x", " # x", "face 3 10U 10.0 012 0 -0 3"]))
        elif kind == 10:
            lines[place] = lines[place] + "\r" * random.choice([1, 2])
        else:
            lines.append("#" * random.choice([1, 65536 - len("\n".join(lines)), 65536]))
    return "\n".join(lines).encode("latin-1")


def random_fleet(random: Random) -> List[Tuple[str, bytes]]:
    """1 to 4 printers: the word that names each, '' where it is a file, and its text."""
    count = random.choice([1, 1, 1, 2, 2, 3, 4])
    if random.random() < 0.35:
        words = [random.choice(["@A", "@B", "@B", "@C", "@D"]) for _ in range(count)]
        if random.random() < 0.6:
            words = [words[0]] * count
        return [(word, SAMPLES[word].encode()) for word in words]
    base = random_draft(random)
    drafts = [base]
    while len(drafts) < count:
        draft = near_draft(random, base)
        if is_sound(draft):
            drafts.append(draft)
    return [("", write_draft(random, draft)) for draft in drafts]


def random_broken_fleet(random: Random) -> List[Tuple[str, bytes]]:
    fleet = random_fleet(random)
    place = random.randrange(len(fleet))
    fleet[place] = ("", break_text(random, fleet[place][1]))
    return fleet
