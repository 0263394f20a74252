#!/usr/bin/env python3
"""Peers that are silent, or take nothing, hold every worker of the built program's `serve`, each for 30 seconds and no longer.

This takes most of a minute, so that the gate leaves it out.

    silent.py PROGRAM
"""
import os, sys, time

sys.dont_write_bytecode = True
PROGRAM = os.path.abspath(sys.argv[1])
import serving
from serving import STORED, TOLD_HASH, Server, request, whole

# What each peer sends before it is silent.
SILENT = {
    "sends nothing": b"",
    "stops in a head": b"GET /policy/hash HTTP/1.1\r\nParty-",
    "stops in a body": request("PUT", "/files/all/a", 1, b"abc")[:-1],
    "stops between requests": request("GET", "/policy/hash", 1),
    "takes nothing": request("GET", "/files/all/large", 1) * 4,
}


def main():
    wrong = 0
    with serving.folder() as place, Server(PROGRAM, place, "--workers", str(len(SILENT))) as server:
        with server.peer() as peer:
            assert peer.ask("PUT", "/files/all/large", 1, bytes(16_000_000)) == whole("PUT", STORED)
        time.sleep(0.5)
        begun, peers = time.monotonic(), [server.peer() for _ in SILENT]
        for peer, sent in zip(peers, SILENT.values()):
            peer.send(sent)
        time.sleep(0.5)
        # Every worker is held now. This one waits for the first to be free.
        with server.peer() as late:
            found = late.ask("GET", "/policy/hash", 1)
            waited = time.monotonic() - begun
        print(f"a peer beside silent ones: answered within {waited:.1f} s")
        wrong += found != whole("GET", TOLD_HASH) or not 29 < waited < 40
        for name, peer in zip(SILENT, peers):
            # one that takes nothing must not begin to, so it is looked at after the rest, and late
            slow = name == "takes nothing"
            time.sleep(max(0, begun + 45 - time.monotonic()) if slow else 0)
            held = 0
            try:
                while more := peer.socket.recv(1 << 20):
                    held += len(more)
                how = "ended"
            except ConnectionResetError:
                how = "reset"
            took = time.monotonic() - begun
            right = held < 4 * 16_000_000 if slow else 29 < took < 40
            wrong += not right
            print(f"{name}: {how} within {took:.1f} s, after {held} bytes")
        if server.process.poll() is not None:
            wrong += 1
    print(f"silent: {wrong} wrong")
    sys.exit(1 if wrong else 0)


main()
