"""A connection to an MQTT broker that is dialled again whenever it is gone: its options, password, TLS, a will. Used by mqtt.py.

It needs python3-paho-mqtt.
"""
import pathlib
import ssl
import sys
import time
import urllib.parse
import uuid

try:
    import paho.mqtt.client as mqtt
except ImportError:
    mqtt = None

# What is to be done where paho isn't there.
MISSING = None if mqtt else f"{sys.executable} has no paho: apt-get install python3-paho-mqtt, and start the tool by /usr/bin/python3, which sees it"
LATEST = [mqtt.CallbackAPIVersion.VERSION2] if hasattr(mqtt, "CallbackAPIVersion") else []         # paho 2 asks for it
PORT, TLS_PORT, ALIVE = 1883, 8883, 5        # a broker counts a client as gone that is silent for one and a half of ALIVE seconds


class Unusable(Exception):
    """A file of the line can't be used."""


def add_options(asked):
    asked.add_argument("--broker", required=True, metavar="HOST[:PORT]", help=f"port {PORT} if it isn't given, with TLS {TLS_PORT}")
    asked.add_argument("--user", metavar="NAME", help="of the broker")
    asked.add_argument("--password-file", metavar="FILE", help="a file with the user's password")
    asked.add_argument("--tls", action="store_true", help="TLS, with a broker whose certificate this machine trusts")
    asked.add_argument("--ca", metavar="FILE", help="TLS, with a broker whose certificate is signed by the one in FILE")
    asked.add_argument("--cert", metavar="FILE", help="TLS, with this certificate of the tool's own, for a broker that asks for one")
    asked.add_argument("--key", metavar="FILE", help="the key of --cert, where it isn't in the same file")


def address(given):
    """The host and the port of --broker; None where it is no address, or where options don't go together."""
    try:
        broker = urllib.parse.urlsplit(f"//{given.broker}")
        port = broker.port or (TLS_PORT if given.tls or given.ca or given.cert else PORT)
    except ValueError:
        return None
    fits = broker.hostname and not (broker.path or broker.username or given.password_file and not given.user or given.key and not given.cert)
    return (broker.hostname, port) if fits else None


def secured(client, given):
    """Gives a client the user, the password and the certificates of the line."""
    file = given.password_file
    try:
        if given.user:
            client.username_pw_set(given.user, pathlib.Path(file).read_text().rstrip("\n") if file else None)
        if given.tls or given.ca or given.cert:
            file = given.ca
            context = ssl.create_default_context(cafile=file)
            context.verify_flags &= ~ssl.VERIFY_X509_STRICT            # of Python 3.13: an authority of one's own often lacks a form that it wants
            file = given.cert
            if file:
                context.load_cert_chain(file, given.key)
            client.tls_set_context(context)
    except (OSError, ValueError) as fault:
        raise Unusable(f"{file}: {getattr(fault, 'strerror', None) or fault}") from fault


class Client(mqtt.Client if mqtt else object):
    """paho's, but that its thread outlives each fault of the connection: an alert of TLS, or a host that can't be reached, ends it there."""
    lost = None                                            # is called with the fault

    def loop_forever(self, *given, **named):
        while True:
            try:
                return super().loop_forever(*given, **named)
            except Exception as fault:                     # whatever it is, the connection is made anew
                self.lost(str(fault) or type(fault).__name__)
            time.sleep(1)
            try:
                self.reconnect()
            except OSError:
                pass                                       # the loop tries it again


class Broker:
    """`joined` is how often the connection was made, `is_joined` whether it stands. `came` is called whenever it was made, and `heard`
    gets each message, both in the thread of the connection."""

    def __init__(self, given, will, came, heard, log):
        self.joined, self.is_joined, self.said, self.came, self.heard, self.log = 0, False, None, came, heard, log
        self.client = Client(*LATEST, client_id=f"obix-{uuid.uuid4().hex[:16]}", protocol=mqtt.MQTTv5)
        self.client.lost = self.lost
        self.client.will_set(will, "offline", qos=1, retain=True)
        self.client.on_connect = self.on_connect
        self.client.on_connect_fail = lambda *_: self.lost(str(sys.exc_info()[1]))
        self.client.on_disconnect = lambda *_: self.lost("gone" if self.is_joined else self.said or "it ends the connection")
        self.client.on_message = lambda _, __, message: self.heard(message.topic, message.payload, message.retain)
        self.client.reconnect_delay_set(1, 15)
        secured(self.client, given)
        self.client.connect_async(*address(given), keepalive=ALIVE)

    def tell(self, text):
        if text != self.said:
            self.log(f"broker: {text}")
        self.said = text

    def on_connect(self, *given):
        self.tell("connected" if given[3] == 0 else str(given[3]))
        if given[3] == 0:
            self.joined, self.is_joined = self.joined + 1, True
            self.came()

    def lost(self, text):
        self.is_joined = False
        self.tell(text)

    def listen(self, filters, with_retained):
        """Asks for what others send, again where it was asked for already; all that is retained comes at once, or none of it."""
        options = mqtt.SubscribeOptions(qos=1, noLocal=True, retainAsPublished=True, retainHandling=0 if with_retained else 2)
        self.client.subscribe([(it, options) for it in filters])

    def send(self, topic, text, retain=False, qos=0):
        return self.client.publish(topic, text, qos, retain)

    def end(self, topic, text):
        """Ends the connection with a last message, retained; without it the broker sends the will."""
        try:
            self.send(topic, text, True, 1).wait_for_publish(2)
            self.is_joined = False
            self.client.disconnect()
        except (RuntimeError, ValueError):
            pass                                           # the broker is away
