"""Writes 1,000 texts of each kind into the folder that is named, one a line."""
import random, sys
from pathlib import Path

folder = Path(sys.argv[1])
random.seed(7)


def write(name, one):
    (folder / name).write_text("".join(one() + "\n" for _ in range(1_000)))


def integer():
    size = random.choice([9, 99, 999, 99_999, 9_999_999, 2**40, 2**63 - 1])
    return str(random.randint(-size, size))


def real():
    whole, places = random.choice([(100, 1), (100, 2), (10_000, 3), (10**6, 6), (10**9, 9)])
    text = f"{random.uniform(-whole, whole):.{places}f}"
    return text if random.random() < 0.9 else text + random.choice(["e2", "E-2"])


def date():
    return f"{random.randint(1, 9999):04}-{random.randint(1, 12):02}-{random.randint(1, 28):02}"


def time():
    text = f"{random.randint(0, 23):02}:{random.randint(0, 59):02}:{random.randint(0, 59):02}"
    return text if random.random() < 0.5 else text + f".{random.randint(0, 999):03}"


def instant():
    zone = random.choice(["Z", "+00:00", "+01:00", "-05:30", "+14:00"])
    return f"{random.randint(1970, 2100)}{date()[4:]}T{time()}{zone}"


def span():
    return random.choice([
        f"PT{random.randint(1, 9999)}S",
        f"PT{random.randint(1, 99)}.{random.randint(1, 999)}S",
        f"P{random.randint(1, 99)}M",
        f"P{random.randint(1, 9)}Y{random.randint(1, 11)}M{random.randint(1, 30)}DT"
        f"{random.randint(1, 23)}H{random.randint(1, 59)}M{random.randint(1, 59)}S",
    ])


write("bool", lambda: random.choice(["true", "false", "1", "0"]))
write("int", integer)
write("real", real)
write("date", date)
write("time", time)
write("abstime", instant)
write("reltime", span)
