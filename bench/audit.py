"""The runs of bench/audit.sh."""
import os
import subprocess
import sys
import tempfile

program, count = sys.argv[1], int(sys.argv[2])
SITE = b'<obj href="http://h/obix/"><int href="/obix/n" val="7" writable="true"/></obj>'


def asked(number):
    """Verb and body of a request: each tenth one writes."""
    return ("PUT", f'<int val="{number}"/>') if number % 10 == 0 else ("GET", "")


def run(words, given, written):
    """Processor seconds of a run, the most memory that it had in MB, and its status.

    By `time`, as a child of this process would begin with the memory that Python has.
    """
    with open(given) as asked_of, open(written, "w") as told_by, tempfile.NamedTemporaryFile("r") as used:
        timed = ["/usr/bin/time", "-q", "-f", "%U %S %M", "-o", used.name, program, *words]
        status = subprocess.run(timed, stdin=asked_of, stdout=told_by).returncode
        user, system, most = map(float, used.read().split())
    return user + system, most / 1024, status


def bodies(answers):
    """The bodies of answers of status 200."""
    place = 0
    while place < len(answers):
        end = answers.index(b"\r\n\r\n", place)
        size = int(answers[place:end].split(b"Content-Length: ")[1].split(b"\r\n")[0])
        yield answers[end + 4 : end + 4 + size]
        place = end + 4 + size


with tempfile.TemporaryDirectory() as folder:
    with open(f"{folder}/site", "wb") as file:
        file.write(SITE)
    with open(f"{folder}/requests", "w") as file:
        for number in range(count):
            verb, body = asked(number)
            file.write(f"{verb} /obix/n HTTP/1.1\r\n" + (f"Content-Length: {len(body)}\r\n" if body else "") + f"\r\n{body}")
    told = run(["stdio", f"{folder}/site", "--at", "0"], f"{folder}/requests", f"{folder}/answers")
    with open(f"{folder}/answers", "rb") as file:
        replies = list(bodies(file.read()))
    assert told[2] == 0 and len(replies) == count, (told, len(replies))
    with open(f"{folder}/record", "wb") as file:
        file.write(b"obix-record 1\nboot 0\n")
        for number, reply in enumerate(replies):
            verb, body = asked(number)
            file.write(f"0 {verb} 7 {len(body)} {len(reply)}\n/obix/n{body}".encode() + reply + b"\n")
    size = os.path.getsize(f"{folder}/record") / 1e6
    audited = run(["audit", f"{folder}/site", f"{folder}/record"], os.devnull, f"{folder}/verdict")
    with open(f"{folder}/verdict") as file:
        verdict = file.read()
    assert (audited[2], verdict) == (0, f"legal {count}\n"), (audited, verdict)
    with open(f"{folder}/record", "r+b") as file:
        file.seek(-3, os.SEEK_END)
        file.write(b"?")
    forged = run(["audit", f"{folder}/site", f"{folder}/record"], os.devnull, f"{folder}/verdict")
    with open(f"{folder}/verdict") as file:
        verdict = file.read()
    assert (forged[2], verdict) == (13, f"illegal at {count - 1}\n"), (forged, verdict)
    print(f"{count} requests; a record of {size:.1f} MB")
    print(f"stdio: {told[0]:.2f} s, {told[1]:.0f} MB at most")
    print(f"audit: {audited[0]:.2f} s, {audited[1]:.0f} MB at most; {audited[0] / told[0]:.2f} times the seconds of stdio")
