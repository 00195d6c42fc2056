#!/usr/bin/env python3
"""Follows a watch of an oBIX server, and prints a table of what it holds after each poll.

    python3 examples/dashboard.py http://127.0.0.1:8080/obix/ /obix/boiler/flow /obix/setpoints/feed --polls 3 --pause 2

From the lobby to the watch service, a watch of one's own, one add, then pollChanges for as long as one looks, and
delete. Statuses: 0 all polls were answered, 1 usage, 7 no server, or it ended, 8 the server said otherwise, 130 Ctrl-C;
the watch is deleted also then.
"""
import argparse
import http.client
import sys
import time
import urllib.parse
import xml.etree.ElementTree as ET
from xml.sax.saxutils import quoteattr


class Otherwise(Exception):
    """What the server said in place of what was asked for."""


class Server:
    """One connection, over which each request waits for its reply."""

    def __init__(self, url):
        self.url, parts = url, urllib.parse.urlsplit(url)
        self.link = http.client.HTTPConnection(parts.hostname, parts.port or 80, timeout=30)

    def ask(self, verb, href, body=""):
        path = urllib.parse.urlsplit(urllib.parse.urljoin(self.url, href)).path
        self.link.request(verb, path, body.encode(), {"Content-Type": "text/xml"} if body else {})
        reply = self.link.getresponse()
        text = reply.read().decode()
        if reply.status != 200:
            raise Otherwise(f"{verb} {path}: {reply.status} {text}")
        root = ET.fromstring(text)
        if is_kind(root, "err"):
            raise Otherwise(f"{verb} {path}: {root.get('display')}")
        return root


def is_kind(element, kind):
    return element.tag.rpartition("}")[2] == kind


def part(root, name):
    """The child of that name."""
    found = next((it for it in root if it.get("name") == name), None)
    if found is None:
        raise Otherwise(f"the reply has no {name}")
    return found


def hear(held, reply, is_poll):
    """Puts the entries of a WatchOut into what is held: a feed's events behind those that it has, all else anew."""
    for entry in part(reply, "values"):
        old = held.get(entry.get("href"))
        if is_kind(entry, "err"):
            raise Otherwise(f"{entry.get('href')}: {entry.get('display')}")
        if is_poll and old is not None and is_kind(entry, "feed"):
            old.extend(it for it in entry if it.get("name") != "dropped")
        else:
            held[entry.get("href")] = entry


def told(entry):
    """An object in a few words: a value with its unit, a feed by its events, any other by the values in it."""
    if is_kind(entry, "feed"):
        return f"{len(entry)} events"
    text = entry.get("display") or entry.get("val")
    if text is None and len(entry):
        return ", ".join(f"{it.get('name')} {told(it)}" for it in entry if it.get("val") is not None)
    unit = entry.get("unit", "").rpartition("/")[2]
    return "null" if text is None else f"{text} {unit}".rstrip()


def print_table(head, held):
    print(head)
    for asked, entry in held.items():
        print(f"  {asked:<32} {told(entry)} {entry.get('status') or ''}".rstrip(), flush=True)


def follow(server, given):
    held = {}
    service = server.ask("GET", part(server.ask("GET", given.url), "watchService").get("href"))
    watch = server.ask("POST", part(service, "make").get("href"))
    try:
        uris = "".join(f"<uri val={quoteattr(it)}/>" for it in given.href)
        hear(held, server.ask("POST", part(watch, "add").get("href"), f"<obj><list name='hrefs'>{uris}</list></obj>"), False)
        print_table("now", held)
        for number in range(given.polls):
            time.sleep(given.pause)
            hear(held, server.ask("POST", part(watch, "pollChanges").get("href")), True)
            print_table(f"poll {number + 1}", held)
    finally:
        server.link.close()                                # an interrupt may have left half a reply on it
        server.ask("POST", part(watch, "delete").get("href"))


def main():
    words = argparse.ArgumentParser(description=__doc__, formatter_class=argparse.RawDescriptionHelpFormatter)
    words.error = lambda said: words.exit(1, f"{words.format_usage()}dashboard.py: {said}\n")
    words.add_argument("url", help="the lobby of the server")
    words.add_argument("href", nargs="+", help="what to follow: points, objects, feeds")
    words.add_argument("--polls", type=int, default=1)
    words.add_argument("--pause", type=float, default=1.0, help="seconds before each poll")
    given = words.parse_args()
    try:
        follow(Server(given.url), given)
    except KeyboardInterrupt:
        return 130
    except (OSError, http.client.HTTPException) as fault:
        print(f"dashboard.py: {given.url}: {getattr(fault, 'strerror', None) or fault}", file=sys.stderr)
        return 7
    except (Otherwise, ET.ParseError) as fault:
        print(f"dashboard.py: {fault}", file=sys.stderr)
        return 8
    return 0


if __name__ == "__main__":
    sys.exit(main())
