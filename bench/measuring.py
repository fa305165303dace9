"""Runs the built program, and tells its time, memory and output. For the scripts beside this file."""
import argparse
import os
import subprocess
import sys
import tempfile
import time

ROOT = os.path.dirname(os.path.dirname(os.path.abspath(__file__)))
POLICY = b"[ default -> .* ]\n"


def program(about):
    """The program to measure: the one that --program names, else the built one, which is built anew after a change."""
    parser = argparse.ArgumentParser(description=about)
    parser.add_argument("--program", help="measure this program in place of the built one")
    named = parser.parse_args().program
    if named:
        return os.path.abspath(named)
    script = os.path.join(ROOT, "merlin")
    if subprocess.run([script], stdout=subprocess.DEVNULL).returncode != 2:
        sys.exit("the program was not built")
    return os.path.join(ROOT, ".built", "dirkolu")


def run(binary, folder, words, times=3):
    """Runs the words in a folder: least seconds, most KiB of memory, and the lines, bytes and status of the last run."""
    seconds, memory = [], []
    out, note = os.path.join(folder, "out"), os.path.join(folder, "note")
    for _ in range(times):
        with open(out, "wb") as file:
            begin = time.perf_counter()
            ended = subprocess.run(
                ["/usr/bin/time", "-f", "%M", "-o", note, binary, *words], cwd=folder, stdout=file
            )
            seconds.append(time.perf_counter() - begin)
        with open(note) as file:
            memory.append(int(file.read().split()[-1]))
    with open(out, "rb") as file:
        lines = sum(1 for _ in file)
    return min(seconds), max(memory), lines, os.path.getsize(out), ended.returncode


def save(folder, name, content):
    with open(os.path.join(folder, name), "wb") as file:
        file.write(content)


def scratch():
    return tempfile.TemporaryDirectory(prefix="bench")


def host(number):
    """The JSON text of the host hN, for N up to 65535."""
    high, low = divmod(number, 256)
    return '{"name":"h%d","kind":"host","eth":"02:00:00:00:%02x:%02x","ip":"10.0.%d.%d"}' % (
        number, high, low, high, low,
    )


def switch(number):
    return '{"name":"s%d","kind":"switch"}' % number


def link(a, aport, b, bport):
    return '{"a":"%s","aport":%d,"b":"%s","bport":%d,"capacity":"1Gbps"}' % (a, aport, b, bport)


def topology(locations, links, before=""):
    """The JSON text of a network, with the text of other members in front."""
    text = '{%s"locations":[%s],"links":[%s]}' % (before, ",".join(locations), ",".join(links))
    return text.encode()


def one_switch(hosts, before=""):
    """The JSON text of so many hosts at one switch."""
    locations = [host(number) for number in range(1, hosts + 1)] + [switch(1)]
    links = [link("h%d" % number, 1, "s1", number) for number in range(1, hosts + 1)]
    return topology(locations, links, before)
