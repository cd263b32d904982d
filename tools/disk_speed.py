#!/usr/bin/env python3
"""Measures random requests of vhost-user-blk beside those of qemu-storage-daemon and of fio, on the same image.

usage: tools/disk_speed.py [--image FILE | --loop] [--seconds S] [--rounds N] [--depths N,..] [--lens N,..]
           [--mixes reads,writes,70:30] [--caches cache,direct] [--program FILE] [--ways io_uring,threads]
           [--words WORDS]

The image is a new file of 1 GiB, FILE, whose bytes are lost, or with --loop a block device over a file in /dev/shm. The
driver, bindings/vhost-user-blk/tests/disk_speed.rs, keeps so many requests under way and looks for their ends without a
rest, so it needs a processor of its own. The program, the daemon (of Debian's package qemu-utils) by each way, and fio
by io_uring take turns, for some rounds. For each there is a line with the least, the middle and the most of the
requests of a second, and the microseconds of a processor that all its threads work for one, in the middle. WORDS are
options for the program, as "--poll 32". What is not installed is left out. Nothing else should run meanwhile.
"""

import argparse
import contextlib
import json
import os
import pathlib
import re
import shutil
import statistics
import subprocess
import sys
import tempfile
import time

TOP = pathlib.Path(__file__).resolve().parent.parent
SIZE = 1 << 30
READS = {"reads": 100, "writes": 0, "70:30": 70}


def built():
    """Builds the program and its driver, and returns their files."""
    build = TOP / "bindings/vhost-user-blk/build"
    subprocess.run([build], check=True)
    words = [build, "test", "--release", "--test", "disk_speed", "--no-run", "--message-format=json"]
    lines = subprocess.run(words, check=True, capture_output=True, text=True).stdout.splitlines()
    made = [json.loads(line).get("executable") for line in lines if '"disk_speed"' in line]
    return TOP / "bindings/target/release/vhost-user-blk", next(it for it in made if it)


@contextlib.contextmanager
def image_of(words, room):
    """An image that is all written: a hole would be read without the disk."""
    if words.image:
        yield words.image
        return
    file = pathlib.Path("/dev/shm" if words.loop else room, f"disk_speed-{os.getpid()}.img")
    device = None
    try:
        with file.open("wb") as made:
            for _ in range(SIZE >> 20):
                made.write(os.urandom(1 << 20))
        if words.loop:
            made = subprocess.run(["losetup", "--find", "--show", file], check=True, capture_output=True, text=True)
            device = made.stdout.strip()
        yield device or str(file)
    finally:
        if device:
            subprocess.run(["losetup", "--detach", device], check=True)
        file.unlink(missing_ok=True)


def size_of(image):
    with open(image, "rb") as file:
        return file.seek(0, os.SEEK_END)


def work_of(pid):
    """Returns the seconds that a processor worked for all threads of a process."""
    words = pathlib.Path(f"/proc/{pid}/stat").read_text().rpartition(") ")[2].split()
    return (int(words[11]) + int(words[12])) / os.sysconf("SC_CLK_TCK")


def drive(driver, socket, image, case, seconds):
    """Returns how many requests came back, and the seconds that took."""
    _, mix, len_, depth = case
    asked = f"socket={socket} sectors={size_of(image) // 512} depth={depth} len={len_}"
    asked += f" reads={READS[mix]} millis={int(seconds * 1000)}"
    words = [driver, "--ignored", "--nocapture", "drive"]
    ran = subprocess.run(words, env={**os.environ, "DISK_SPEED": asked}, capture_output=True, text=True)
    found = re.search(r"^served (\d+) in (\d+) ns", ran.stdout, re.M)
    if not found:
        sys.exit(f"the driver failed: {ran.stdout}{ran.stderr}")
    return int(found[1]), int(found[2]) / 1e9


def serve(words, socket, driver, image, case, seconds):
    """Has a back end serve the driver. Returns the requests of a second, and the seconds of a processor for each."""
    with subprocess.Popen(words, stdout=subprocess.DEVNULL) as server:
        try:
            begun = time.monotonic()
            while not os.path.exists(socket):
                if server.poll() is not None or time.monotonic() > begun + 20:
                    sys.exit(f"it does not start: {' '.join(map(str, words))}")
                time.sleep(0.01)
            # What it maps and opens at first is not counted.
            drive(driver, socket, image, case, 0.1)
            before = work_of(server.pid)
            count, took = drive(driver, socket, image, case, seconds)
            return count / took, (work_of(server.pid) - before) / count
        finally:
            server.terminate()
            server.wait()
            pathlib.Path(socket).unlink(missing_ok=True)


def program(file, way, words, socket, image, is_direct):
    more = ["--direct"] if is_direct else []
    return [file, "--socket", socket, "--image", image, "--aio", way, *more, *words]


def daemon(way, socket, image, is_direct):
    driver = "host_device" if image.startswith("/dev/") and not image.startswith("/dev/shm/") else "file"
    disk = f"driver={driver},filename={image},node-name=disk,aio={way},cache.direct={'on' if is_direct else 'off'}"
    export = f"type=vhost-user-blk,id=export,node-name=disk,addr.type=unix,addr.path={socket},writable=on"
    return ["qemu-storage-daemon", "--blockdev", disk, "--export", export]


def fio(image, case, seconds):
    """Returns the requests of a second of fio, and the seconds of a processor for each."""
    cache, mix, len_, depth = case
    words = ["fio", "--name=disk", f"--filename={image}", "--ioengine=io_uring", f"--direct={int(cache == 'direct')}"]
    words += ["--rw=randrw", f"--rwmixread={READS[mix]}", f"--bs={len_}", f"--iodepth={depth}", "--time_based"]
    words += [f"--runtime={seconds}", "--output-format=json", "--allow_file_create=0"]
    ran = subprocess.run(words, capture_output=True, text=True)
    if ran.returncode:
        sys.exit(f"fio failed: {ran.stdout}{ran.stderr}")
    job = json.loads(ran.stdout[ran.stdout.index("{"):])["jobs"][0]
    rate = job["read"]["iops"] + job["write"]["iops"]
    return rate, (job["usr_cpu"] + job["sys_cpu"]) / 100 / rate


def measures(words, room, image, file, driver):
    """Returns what takes turns, by its name: a function of a case that measures it once."""
    socket = f"{room}/s"

    def of(command, *more):
        served = lambda case: command(*more, socket, image, case[0] == "direct")
        return lambda case: serve(served(case), socket, driver, image, case, words.seconds)

    found = {f"program, {way}": of(program, file, way, words.words.split()) for way in words.ways}
    if shutil.which("qemu-storage-daemon"):
        found |= {f"daemon, {way}": of(daemon, way) for way in words.ways if way != "none"}
    if shutil.which("fio"):
        found["fio, io_uring"] = lambda case: fio(image, case, words.seconds)
    return found


def measure(case, found, rounds):
    """Measures each in turn, and prints a line for each."""
    results = {name: [] for name in found}
    for _ in range(rounds):
        for name, once in found.items():
            results[name].append(once(case))
    cache, mix, len_, depth = case
    for name, all_ in results.items():
        rates, work = [it[0] for it in all_], statistics.median(it[1] for it in all_) * 1e6
        numbers = [f"{of(rates):.0f}" for of in (min, statistics.median, max)]
        row = [cache, mix, len_, depth, name, *numbers, f"{work:.1f}"]
        print(f"| {' | '.join(map(str, row))} |", flush=True)


def parsed():
    parser = argparse.ArgumentParser(usage=__doc__, add_help=False)
    parser.add_argument("--help", "-h", action="store_true")
    parser.add_argument("--image")
    parser.add_argument("--loop", action="store_true")
    parser.add_argument("--seconds", type=float, default=2)
    parser.add_argument("--rounds", type=int, default=5)
    lists = {"depths": "1,4,16,64", "lens": "4096,65536", "mixes": "reads,writes,70:30", "caches": "cache,direct"}
    for name, default in {**lists, "ways": "io_uring,threads"}.items():
        parser.add_argument(f"--{name}", type=lambda text: text.split(","), default=default.split(","))
    parser.add_argument("--program")
    parser.add_argument("--words", default="")
    return parser.parse_args()


def main():
    words = parsed()
    if words.help:
        print(__doc__, end="")
        return
    if set(words.mixes) - set(READS) or set(words.caches) - {"cache", "direct"}:
        sys.exit("tools/disk_speed.py: --mixes takes reads, writes and 70:30, and --caches takes cache and direct")
    file, driver = built()
    with tempfile.TemporaryDirectory() as room, image_of(words, room) as image:
        found = measures(words, room, image, words.program or file, driver)
        print("| Cache | Requests | Bytes | Depth | By | Least a second | Middle | Most | us of a processor |")
        print("|---|---|---|---|---|---|---|---|---|")
        for cache in words.caches:
            for mix in words.mixes:
                for len_ in map(int, words.lens):
                    for depth in map(int, words.depths):
                        measure((cache, mix, len_, depth), found, words.rounds)


main()
