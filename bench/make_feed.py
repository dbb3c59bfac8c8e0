#!/usr/bin/env python3
"""Writes a GTFS folder of a city whose streets form a grid, for measuring csa.

    bench/make_feed.py SIDE FOLDER [--frequencies]

The city has SIDE x SIDE stations, each with a platform for the line along its street and one for the line across. Each line runs
from five in the morning to midnight in both directions, every eight to fifteen minutes; hops take one to three minutes. The same
SIDE gives the same bytes on every machine. A side of 30 gives some 400,000 connections a day (a city), and one of 100 gives some
4,500,000 (a metropolis). With --frequencies the feed has the same runs, but lists only the first trip of each line and direction,
and repeats it by a row of frequencies.txt.
"""

import os
import sys

FIRST_TRIP = 5 * 3600
LAST_TRIP = 24 * 3600
DWELL = 20


def numbers(seed):
    """Gives an endless sequence of numbers, by a linear congruential generator, so that no version of Python changes a feed."""
    state = seed
    while True:
        state = (state * 1103515245 + 12345) % 2**31
        yield state >> 8


def clock(seconds):
    return f"{seconds // 3600:02}:{seconds // 60 % 60:02}:{seconds % 60:02}"


def write_file(folder, name, header, rows):
    with open(os.path.join(folder, name), "w", encoding="utf-8", newline="\n") as file:
        file.write(header + "\n")
        file.writelines(row + "\n" for row in rows)


def stop_rows(side):
    for y in range(side):
        for x in range(side):
            yield f"S{x}-{y},Station {x} {y},1,"
            yield f"A{x}-{y},Along {x} {y},0,S{x}-{y}"
            yield f"C{x}-{y},Across {x} {y},0,S{x}-{y}"


def lines(side):
    """The stops of each line in the order of its first direction: a street of the grid along, then one across."""
    for at in range(side):
        yield [f"A{x}-{at}" for x in range(side)]
        yield [f"C{at}-{y}" for y in range(side)]


def trips(side):
    """The trips of each line and direction: their headway, and each trip as its name and the list of its stops with arrival and departure."""
    drawn = numbers(side)
    for line, stops in enumerate(lines(side)):
        hops = [60 + next(drawn) % 120 for _ in stops[1:]]
        headway = 60 * (8 + next(drawn) % 8)
        start = FIRST_TRIP + next(drawn) % headway
        for direction, (path, times) in enumerate(((stops, hops), (stops[::-1], hops[::-1]))):
            leaving = range(start + direction * headway // 2, LAST_TRIP, headway)
            yield headway, [(f"L{line}-{direction}-{count}", list(stop_times(path, times, leaves))) for count, leaves in enumerate(leaving)]


def stop_times(stops, hops, leaves):
    arrives = leaves
    for place, stop in enumerate(stops):
        yield stop, arrives, leaves
        if place < len(hops):
            arrives = leaves + hops[place]
            leaves = arrives + DWELL


def main():
    has_frequencies = sys.argv[3:] == ["--frequencies"]
    if len(sys.argv) != 3 + has_frequencies or not sys.argv[1].isdigit() or int(sys.argv[1]) < 2:
        sys.exit("usage: bench/make_feed.py SIDE FOLDER [--frequencies], where SIDE is 2 or more")
    side, folder = int(sys.argv[1]), sys.argv[2]
    os.makedirs(folder, exist_ok=True)
    write_file(folder, "agency.txt", "agency_id,agency_name,agency_url,agency_timezone", ["1,Grid,http://grid.example,Etc/UTC"])
    write_file(folder, "stops.txt", "stop_id,stop_name,location_type,parent_station", stop_rows(side))
    write_file(folder, "calendar.txt", "service_id,monday,tuesday,wednesday,thursday,friday,saturday,sunday,start_date,end_date",
               ["D,1,1,1,1,1,1,1,20240101,20241231"])
    with open(os.path.join(folder, "trips.txt"), "w", encoding="utf-8", newline="\n") as trip_file, \
            open(os.path.join(folder, "stop_times.txt"), "w", encoding="utf-8", newline="\n") as time_file:
        trip_file.write("route_id,service_id,trip_id\n")
        time_file.write("trip_id,arrival_time,departure_time,stop_id,stop_sequence\n")
        listed = (trip for _, of_line in trips(side) for trip in of_line[: 1 if has_frequencies else None])
        for trip, times in listed:
            trip_file.write(f"R,D,{trip}\n")
            time_file.writelines(
                f"{trip},{clock(arrives)},{clock(leaves)},{stop},{place}\n" for place, (stop, arrives, leaves) in enumerate(times, 1))
    if has_frequencies:
        rows = (f"{of_line[0][0]},{clock(of_line[0][1][0][2])},{clock(LAST_TRIP)},{headway}" for headway, of_line in trips(side))
        write_file(folder, "frequencies.txt", "trip_id,start_time,end_time,headway_secs", rows)


if __name__ == "__main__":
    main()
