"""Points of oBIX as Home Assistant wants to be told of them: its documented form of discovery by MQTT. Used by mqtt.py."""
import json
import re

from plant import number

UNITS = {"celsius": ("°C", "temperature"), "fahrenheit": ("°F", "temperature"), "percent": ("%", None), "pascal": ("Pa", "pressure"),
         "bar": ("bar", "pressure"), "watt": ("W", "power"), "kilowatt": ("kW", "power"), "kilowatt_hour": ("kWh", "energy"),
         "volt": ("V", "voltage"), "ampere": ("A", "current"), "hertz": ("Hz", "frequency"), "second": ("s", "duration")}
SHAPES = {"int": ("sensor", "number"), "real": ("sensor", "number"), "bool": ("binary_sensor", "switch"), "enum": ("sensor", "select"),
          "str": ("sensor", "text")}         # what a point is there: one that is read, and one that is written
WIDE = 1e9                                   # a limit where the point has none: without it the one there is 1 or 100


def id_of(topic):
    """A topic as an id, no other topic's: a / is a _, and what else is no letter or digit is a - and its number."""
    return re.sub("[^0-9A-Za-z/]", lambda it: f"-{ord(it[0]):02x}", topic).replace("/", "_")


def shape_of(point):
    is_written = point["kind"] in SHAPES and bool(point["put"] or point["op"]) and (point["kind"] != "enum" or bool(point["choices"]))
    return SHAPES.get(point["kind"], SHAPES["str"])[is_written], is_written


def config(point, topic, available, device, title):
    """The message that makes an entity of a point, and where it stands below the topic of discovery; `device` is what all belong to."""
    (shape, is_written), kind = shape_of(point), point["kind"]
    it = {"name": " ".join([*point["group"][-1:], point["name"]]), "unique_id": id_of(topic), "state_topic": topic,
          "value_template": "{{ value_json.val }}", "json_attributes_topic": topic, "availability_topic": available,
          "device": {"identifiers": [device], "name": title}, "origin": {"name": "mqtt.py of obix"}}
    if is_written:
        it["command_topic"] = f"{topic}/set"
    if kind in ("int", "real"):
        it.update(measured(point["unit"], shape))
    if shape == "number":
        least, most = (number(point[facet]) for facet in ("min", "max"))
        digits = int(point["precision"]) if re.fullmatch("[0-3]", point["precision"] or "") else 1
        it.update(min=-WIDE if least is None else least, max=WIDE if most is None else most, step=1 if kind == "int" else 10 ** -digits, mode="box")
    if kind == "bool":
        it.update(payload_on="true", payload_off="false", value_template="{{ none if value_json.val is none else value_json.val | lower }}")
    if shape == "select":
        it["options"] = [name for name, _ in point["choices"]]
    return f"{shape}/{device}/{it['unique_id']}/config", json.dumps(it, ensure_ascii=False)


def measured(unit, shape):
    """The unit of a number and what it measures; a meter's reading is a total."""
    text, device_class = UNITS.get(unit, (unit, None))
    state_class = {"state_class": "total" if device_class == "energy" else "measurement"} if shape == "sensor" else {}
    return {**({"unit_of_measurement": text} if text else {}), **({"device_class": device_class} if device_class else {}), **state_class}
