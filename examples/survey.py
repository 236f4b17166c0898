#!/usr/bin/env python3
"""A year of hourly readings at three stations, which alice writes and bob reads.

    python3 examples/survey.py http://127.0.0.1:5101 [--share]

needs a service over examples/lab.toml, whose domain /home/lab the group of alice and bob may read. Alice keeps the
temperatures there, in tenths of a degree, and bob reads every sixth hour of one station and prints the means of each
month. With --share the domain is /home/survey, which alice makes, lets the group read, and has kept on the disk.
"""

import argparse
import math
import os
import sys

sys.path.insert(0, os.path.join(os.path.dirname(os.path.abspath(__file__)), os.pardir, "clients", "python"))
from hsds_client import Domain  # noqa: E402

STATIONS = ["harbour", "hill", "mill"]
MONTHS = [("Jan", 31), ("Feb", 28), ("Mar", 31), ("Apr", 30), ("May", 31), ("Jun", 30)]
MONTHS += [("Jul", 31), ("Aug", 31), ("Sep", 30), ("Oct", 31), ("Nov", 30), ("Dec", 31)]
HOURS = 24 * sum(days for _, days in MONTHS)


def reading(station, hour):
    """A temperature in tenths of a degree: coldest in January and at night."""
    season = math.cos(2 * math.pi * (hour / 24 - 20) / 365)
    time_of_day = math.cos(2 * math.pi * (hour - 14) / 24)
    return round(90 - 100 * season + 35 * time_of_day - 15 * station)


def write(domain):
    """Writes the dataset, which has a row for each station, and makes it where it is missing."""
    shape = (len(STATIONS), HOURS)
    hourly = domain.get("survey/temperature") or domain.create_dataset("survey/temperature", shape, "<i2")
    hourly.attrs["unit"] = "0.1 degree Celsius"
    hourly.attrs["stations"] = STATIONS
    hourly[...] = [[reading(station, hour) for hour in range(HOURS)] for station in range(len(STATIONS))]


def print_means(domain, station):
    """A line for each month, with the mean temperature of a station at four times of the day."""
    hourly = domain["survey/temperature"]
    row = list(hourly.attrs["stations"]).index(station)
    sixth = hourly[row, ::6]
    print("%s, mean temperature in degrees" % station)
    print("      00:00  06:00  12:00  18:00")
    day = 0
    for month, days in MONTHS:
        means = [sum(map(int, sixth[4 * day + hour : 4 * (day + days) : 4])) / days / 10 for hour in range(4)]
        print("%s  " % month + "".join("%7.1f" % mean for mean in means))
        day += days


def main():
    words = argparse.ArgumentParser(description=__doc__, formatter_class=argparse.RawDescriptionHelpFormatter)
    words.add_argument("url")
    words.add_argument("--share", action="store_true")
    given = words.parse_args()
    path = "/home/survey" if given.share else "/home/lab"
    with Domain(given.url, path, "ta", "a" if given.share else "r+") as alices:
        write(alices)
        if given.share:
            alices.acls["g:lab"] = {"read"}
            alices.flush()
    with Domain(given.url, path, "tb") as bobs:
        print_means(bobs, "hill")


main()
