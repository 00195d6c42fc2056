"""The ways on which somebody is told of an alarm: a command of the shell, a webhook, a mail. Used by notify.py. The standard library alone."""
import email.message
import email.utils
import hashlib
import http.client
import json
import os
import pathlib
import re
import signal
import smtplib
import ssl
import subprocess
import urllib.parse
import urllib.request


class Untold(Exception):
    """The way didn't take an event, or its answer was lost."""


class Unusable(Exception):
    """A file of the line can't be used."""


class Straight(urllib.request.HTTPRedirectHandler):
    """Follows no redirection: behind one a POST becomes a GET, and says nothing."""

    def redirect_request(self, *_):
        return None


def address(text, port):
    """The host and the port of HOST[:PORT]; None where it is none."""
    try:
        found = urllib.parse.urlsplit(f"//{text}")
        return (found.hostname, found.port or port) if found.hostname and not found.path and found.username is None else None
    except ValueError:
        return None


def reply(code, text):
    return f"{code} {text.decode(errors='replace') if isinstance(text, bytes) else text}"


def reason(fault):
    """What a person is told of a fault of a way."""
    if isinstance(fault, smtplib.SMTPRecipientsRefused):
        return ", ".join(f"{who}: {reply(*it)}" for who, it in fault.recipients.items())
    if isinstance(fault, smtplib.SMTPResponseException):
        return reply(fault.smtp_code, fault.smtp_error)
    return getattr(fault, "strerror", None) or str(fault) or type(fault).__name__


class Ways:
    """The way that the line names, for one event after another. Each raises Untold where the event wasn't taken."""

    def __init__(self, given, log):
        self.given, self.log, self.context, self.password, file = given, log, None, None, None
        self.opener = urllib.request.build_opener(Straight)
        try:
            if given.starttls:
                file = given.ca
                self.context = ssl.create_default_context(cafile=file)
                self.context.verify_flags &= ~ssl.VERIFY_X509_STRICT   # of Python 3.13: an authority of one's own often lacks a form that it wants
            if given.user:
                file = given.password_file
                self.password = pathlib.Path(file).read_text().rstrip("\n")
        except (OSError, ValueError) as fault:
            raise Unusable(f"{file}: {reason(fault)}") from fault

    def tell(self, event):
        way = "command" if self.given.command else "webhook" if self.given.webhook else "smtp"
        try:
            getattr(self, way)(event)
        except (OSError, http.client.HTTPException, ValueError) as fault:
            raise Untold(f"{way}: {reason(fault)}") from fault

    def command(self, event):
        named = {f"ALARM_{name.upper()}": value or "" for name, value in event.items()}
        run = subprocess.Popen(self.given.command, shell=True, env={**os.environ, **named}, stdin=subprocess.DEVNULL, start_new_session=True)
        try:
            status = run.wait(self.given.timeout)
        except subprocess.TimeoutExpired:
            os.killpg(run.pid, signal.SIGKILL)             # the shell, and what it has started
            run.wait()
            raise Untold(f"command: not done within {self.given.timeout:g} s, and ended") from None
        if status:
            raise Untold(f"command: status {status}")

    def webhook(self, event):
        fields = {"Content-Type": "application/json", "Idempotency-Key": event["id"]}
        asked = urllib.request.Request(self.given.webhook, json.dumps(event).encode(), fields)
        with self.opener.open(asked, timeout=self.given.timeout):
            pass                                           # another status than 2xx is an OSError

    def smtp(self, event):
        mail = email.message.EmailMessage()
        mail["From"], mail["To"], mail["Date"] = self.given.sender, ", ".join(self.given.to), email.utils.formatdate(localtime=True)
        mail["Auto-Submitted"] = "auto-generated"          # nobody's absence is answered to it
        mail["Subject"] = re.sub(r"\s+", " ", event["subject"])
        mail["Message-ID"] = f"<{hashlib.sha256(event['id'].encode()).hexdigest()[:32]}@{self.given.sender.rpartition('@')[2].strip('>')}>"
        mail.set_content(event["text"])
        with smtplib.SMTP(*address(self.given.smtp, 25), timeout=self.given.timeout) as link:
            if self.context:
                link.starttls(context=self.context)
            if self.password is not None:
                link.login(self.given.user, self.password)
            for who, refusal in link.send_message(mail).items():           # where all are refused it is a fault
                self.log(f"smtp: {who} is refused, the others have it: {reply(*refusal)}")
