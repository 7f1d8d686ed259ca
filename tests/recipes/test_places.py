"""Packets from where they pass: tcpdump writes to recipes/pcap2wsn, here and in another network, until Ctrl-C."""

import os
import signal
import subprocess
import time

from harness import (HERE, SAMPLES, SECONDS, TOP, Failed, Skipped, free_port, needs, python_with_websockets, run, same,
                     sides, started, test, wait_for)  # fmt: skip

TCPDUMP = "tcpdump -i any -s 0 -U -w - tcp port {port}"


def list_of(folder, command, talk):
    """What a command in a shell prints: it runs while a client talks, and gets SIGINT as by Ctrl-C after that."""
    with open(folder / "said", "w+b") as said:
        process = subprocess.Popen(["sh", "-c", command], stdout=subprocess.PIPE, stderr=said, start_new_session=True)
        wait_for(lambda: b"listening" in (folder / "said").read_bytes() or process.poll() is not None, "tcpdump")
        if b"listening" not in (folder / "said").read_bytes():
            process.communicate(timeout=SECONDS)
            raise Skipped("without the right to capture packets")
        time.sleep(0.5)
        run(*talk)
        time.sleep(1)
        os.killpg(process.pid, signal.SIGINT)
        return process.communicate(timeout=SECONDS)[0].decode()


def has_the_session(listed, port):
    """The list has the session `basic`, as the sample has it."""
    client, server, _ = sides((SAMPLES / "basic.capture").read_bytes())
    rows = [line.split("\t") for line in listed.splitlines()]
    wanted = [[f"127.0.0.1:{port}", "/chat", str(len(client)), str(len(server))]]
    same([row[4:8] for row in rows], wanted, "the list")


@test
def places_here(folder):
    """tcpdump to pcap2wsn, whose list comes after Ctrl-C."""
    needs("tcpdump")
    python, port = python_with_websockets(), free_port()
    talk = [python, HERE / "peers.py", "talk", "basic", f"ws://127.0.0.1:{port}/chat"]
    with started(python, HERE / "peers.py", "serve", "echo", "127.0.0.1", port, line="ready"):
        command = f"{TCPDUMP.format(port=port)} | '{TOP}/recipes/pcap2wsn' -"
        has_the_session(list_of(folder, command, talk), port)


@test
def places_another_network(folder):
    """The same of a server in a network of its own, as a container has one; all captures, too."""
    needs("tcpdump", "unshare", "nsenter", "ip")
    python, port = python_with_websockets(), 9000
    serve = f"ip link set lo up && exec {python} '{HERE}/peers.py' serve echo 127.0.0.1 {port}"
    try:
        with started("unshare", "-n", "sh", "-c", serve, line="ready") as server:
            enter = f"nsenter -t {server.pid} -n "
            talk = [*enter.split(), python, HERE / "peers.py", "talk", "basic", f"ws://127.0.0.1:{port}/chat"]
            command = f"{enter}{TCPDUMP.format(port=port)} | '{TOP}/recipes/pcap2wsn' --all - '{folder}/all'"
            has_the_session(list_of(folder, command, talk), port)
    except Failed as failed:
        if "never said 'ready'" in str(failed):
            raise Skipped("without the right to make a network") from failed
        raise
    wanted = sides((SAMPLES / "basic.capture").read_bytes())
    (capture,) = (folder / "all").iterdir()
    same(sides(capture.read_bytes())[1:], wanted[1:], "the server's bytes, and the ends")
