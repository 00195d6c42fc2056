"""The runs of bench/records.sh."""
import os
import re
import subprocess
import sys
import tempfile
from concurrent.futures import ThreadPoolExecutor

program, data, every = sys.argv[1], sys.argv[2], int(sys.argv[3])
ROW = re.compile(r"\*?(?:\d+ )?(GET|PUT|POST) (\S+)(?: (.*))? => ")


def documents():
    """The site documents by their names, each with the moment of its opening."""
    with open(f"{data}/sites.txt", encoding="utf-8") as file:
        parts = file.read().split("\n=== ")[1:]
    for part in parts:
        head, document = part.split("\n", 1)
        name, boot = head.split()
        yield name, (boot, document)


def dialogues():
    """The name of a site, and the requests that are asked of it, one dialogue after the other."""
    name, requests = None, []
    with open(f"{data}/requests.rows", encoding="utf-8") as file:
        for line in file:
            row = ROW.match(line)
            if line.startswith("open ") or row is None and not line.startswith("#"):
                if requests:
                    yield name, requests
                name, requests = line.split()[1] if line.startswith("open ") else None, []
            elif row and name:
                requests.append(row.groups())
    if requests:
        yield name, requests


def spelled(verb, target, body):
    """A request as it goes over a connection."""
    body = (body or "").encode()
    length = f"Content-Length: {len(body)}\r\n" if body else ""
    return f"{verb} {target} HTTP/1.1\r\n{length}\r\n".encode() + body


def replies(record):
    """Where the reply of each entry begins and ends."""
    place = record.index(b"\n", record.index(b"\n") + 1) + 1
    while place < len(record):
        end = record.index(b"\n", place)
        _, _, target, body, reply = record[place:end].split(b" ")
        begin = end + 1 + int(target) + int(body)
        yield begin, begin + int(reply)
        place = begin + int(reply) + 1


def audited(site, record, name):
    """The status and the output of an audit."""
    with open(name, "wb") as file:
        file.write(record)
    run = subprocess.run([program, "audit", site, name], stdin=subprocess.DEVNULL, capture_output=True)
    return run.returncode, run.stdout


def forged(job):
    """Whether the audit of a record with one other byte names its entry."""
    site, record, place, entry, name = job
    changed = bytearray(record)
    changed[place] ^= 1
    return audited(site, bytes(changed), name) == (13, b"illegal at %d\n" % entry)


sites = dict(documents())
count, entries, bytes_changed, wrong = 0, 0, 0, 0
with tempfile.TemporaryDirectory() as folder, ThreadPoolExecutor(os.cpu_count()) as pool:
    for name, requests in dialogues():
        boot, document = sites[name]
        site = f"{folder}/site"
        with open(site, "w", encoding="utf-8") as file:
            file.write(document)
        words = [program, "record", site, "--at", boot, "--tick", "1000"]
        run = subprocess.run(words, input=b"".join(spelled(*r) for r in requests), capture_output=True)
        spans = list(replies(run.stdout))
        legal = audited(site, run.stdout, f"{folder}/record") == (0, b"legal %d\n" % len(spans))
        if run.returncode != 0 or not legal:
            print("wrong:", name, run.returncode, run.stderr, legal)
            wrong += 1
            continue
        places = [(place, entry) for entry, span in enumerate(spans) for place in range(*span)][::every]
        jobs = [(site, run.stdout, place, entry, f"{folder}/{n}") for n, (place, entry) in enumerate(places)]
        answers = list(pool.map(forged, jobs))
        count, entries, bytes_changed, wrong = count + 1, entries + len(spans), bytes_changed + len(jobs), wrong + answers.count(False)
        for job in jobs:
            os.unlink(job[4])
print(f"{count} dialogues of {entries} requests are legal; {bytes_changed} records with one other byte of a reply, {wrong} wrong")
sys.exit(wrong != 0)
