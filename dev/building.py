#!/usr/bin/env python3
"""Writes the table of examples/building.csv: 2,000 points in 400 rooms, with 200 histories and 300 alarm rules.

    dev/building.py > examples/building.csv
"""
import csv
import sys

out = csv.writer(sys.stdout, lineterminator="\n")
out.writerow("path name kind value unit min max writable range history low high ack".split())
for number in range(400):
    floor, door = number // 40 + 1, number % 40 + 1
    path, name = f"floor{floor}/room{door}", f"Room {floor}.{door:02}"
    history, low, high, ack = 4000 if number % 2 == 0 else "", *((16, 28, "yes") if number % 4 else ("", "", ""))
    out.writerow([f"{path}/temperature", f"{name}, temperature", "real", 21 + number % 5 / 2, "celsius", -40, 80, "yes", "", history, low, high, ack])
    out.writerow([f"{path}/setpoint", f"{name}, setpoint", "real", 21, "celsius", 10, 30, "point", "", "", "", "", ""])
    out.writerow([f"{path}/valve", f"{name}, valve", "int", number % 101, "percent", 0, 100, "yes", "", "", "", "", ""])
    out.writerow([f"{path}/occupied", f"{name}, occupied", "bool", "false", "", "", "", "yes", "", "", "", "", ""])
    out.writerow([f"{path}/mode", f"{name}, mode", "enum", "comfort", "", "", "", "point", "off|eco|comfort", "", "", "", ""])
