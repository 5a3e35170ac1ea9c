"""A stand-in for QEMU, for checks/recording: a process with the memory of a guest, and a monitor that tells of it.

    python3 checks/recording/known_guest.py SOCKET LAYOUT [WORD..]

LAYOUT is JSON: `nodes` is a list of [name, kind, pages], `plugged` one that is plugged in by the line `plug`. `code`
and `video` are pages that are not the guest's memory: a code buffer that can be executed, and video memory. It prints
where each of them is as JSON, and answers on the socket as QEMU 7.2 does. Each line `write` writes to each page; `stop`
and `cont` say whether the guest runs. The words are there for others to read in /proc.
"""

import contextlib
import ctypes
import json
import mmap
import os
import socket
import sys
import tempfile
import threading

PAGE = 4096
ADDRESS_OF_PLUGGED = 4 << 30
HOLE = 0xA0000, 0x100000
SET_NAME = 15


class Node:
    """Some memory with a name, and where the guest has it."""

    def __init__(self, name, kind, pages, guest_address=0):
        self.name, self.kind, self.pages, self.guest_address = name, kind, pages, guest_address
        self.size = pages * PAGE
        self.memory = mapped(kind, self.size)
        self.address = ctypes.addressof(ctypes.c_char.from_buffer(self.memory))
        self.write()

    def write(self):
        for at in range(0, self.size, PAGE):
            self.memory[at] = self.memory[at] % 255 + 1

    def parts(self):
        """Where parts of it are for the guest, with their offsets: without the hole for devices below 1 MiB."""
        begin, end = self.guest_address, self.guest_address + self.size
        for low, high in ((begin, min(end, HOLE[0])), (max(begin, HOLE[1]), end)):
            if low < high:
                yield low, high, low - begin


def mapped(kind, size):
    if kind == "private":
        return mmap.mmap(-1, size, flags=mmap.MAP_PRIVATE | mmap.MAP_ANONYMOUS)
    if kind == "code":
        rights = mmap.PROT_READ | mmap.PROT_WRITE | mmap.PROT_EXEC
        return mmap.mmap(-1, size, flags=mmap.MAP_PRIVATE | mmap.MAP_ANONYMOUS, prot=rights)
    if kind == "memfd":
        file = os.memfd_create("node")
    else:
        file, path = tempfile.mkstemp(dir="/dev/shm")
        os.unlink(path)
    os.ftruncate(file, size)
    memory = mmap.mmap(file, size)
    os.close(file)
    return memory


class Guest:
    def __init__(self, layout):
        self.nodes, self.plugged, at = [], [], 0
        self.runs = True
        for name, kind, pages in layout["nodes"]:
            self.nodes.append(Node(name, kind, pages, at))
            at += pages * PAGE
        self.to_plug = layout.get("plugged")
        self.others = {
            name: Node(name, kind, layout.get(name, 1)) for name, kind in (("code", "code"), ("video", "private"))
        }

    def plug(self):
        self.plugged.append(Node(*self.to_plug, ADDRESS_OF_PLUGGED))

    def all_nodes(self):
        return self.nodes + self.plugged

    def answers(self, command, arguments):
        """What QEMU answers to a command."""
        if command == "human-monitor-command":
            return self.text(arguments["command-line"])
        if command == "query-memdev":
            unused = {"id": "unused", "size": 8 * PAGE}
            return [unused] + [{"id": node.name, "size": node.size} for node in reversed(self.all_nodes())]
        if command == "query-memory-size-summary":
            sizes = [sum(node.size for node in nodes) for nodes in (self.nodes, self.plugged)]
            return dict(zip(("base-memory", "plugged-memory"), sizes))
        if command == "query-memory-devices":
            data = [{"memdev": f"/objects/{node.name}", "size": node.size} for node in self.plugged]
            return [{"type": "dimm", "data": each} for each in data]
        if command == "query-status":
            return {"running": self.runs, "status": "running" if self.runs else "paused"}
        return {}

    def text(self, line):
        name, _, rest = line.partition(" ")
        if name == "gpa2hva":
            return self.host_address(int(rest, 0))
        if line == "info mtree -f":
            return self.view()
        rows = [(node.name, node.size) for node in self.all_nodes()]
        rows += [("0000:00:02.0/vga.vram", self.others["video"].size), ("pc.bios", 64 * PAGE)]
        head = "              Block Name    PSize              Offset               Used              Total\r\n"
        return head + "".join(f"{name:>24}    4 KiB  0x{0:016x} 0x{size:016x} 0x{size:016x}\r\n" for name, size in rows)

    def view(self):
        lines = ["FlatView #0", ' AS "I/O", root: io', "  0000000000000000-0000000000000007 (prio 0, ram): dma", ""]
        lines += ["FlatView #1", ' AS "memory", root: system', " Root memory region: system"]
        for node in self.all_nodes():
            for begin, end, offset in node.parts():
                at = f" @{offset:016x}" if offset else ""
                lines.append(f"  {begin:016x}-{end - 1:016x} (prio 0, ram): {node.name}{at}")
        lines.append("  00000000000e0000-00000000000fffff (prio 0, rom): pc.bios @0000000000020000")
        return "\r\n".join([*lines, "", ""])

    def host_address(self, asked):
        for node in self.all_nodes():
            for begin, end, offset in node.parts():
                if begin <= asked < end:
                    at = node.address + offset + asked - begin
                    return f"Host virtual address for {asked:#x} ({node.name}) is {at:#x}\r\n"
        return f"No memory is mapped at address {asked:#x}\r\n"


def serve(guest, server):
    while True:
        client, _ = server.accept()
        with contextlib.suppress(OSError), client, client.makefile("rw") as stream:
            say(stream, {"QMP": {"version": {}}})
            for line in stream:
                asked = json.loads(line)
                say(stream, {"event": "RTC_CHANGE"})
                say(stream, {"return": guest.answers(asked["execute"], asked.get("arguments", {}))})


def say(stream, message):
    stream.write(json.dumps(message) + "\r\n")
    stream.flush()


def main(path, layout):
    ctypes.CDLL(None).prctl(SET_NAME, b"qemu-system-x86", 0, 0, 0)
    guest = Guest(json.loads(layout))
    # Whoever reads what is printed may connect.
    server = socket.socket(socket.AF_UNIX)
    server.bind(path)
    server.listen()
    threading.Thread(target=serve, args=(guest, server), daemon=True).start()
    told = {}
    while True:
        told["nodes"] = {node.name: [node.address, node.pages] for node in guest.all_nodes()}
        told["others"] = {node.name: [node.address, node.pages] for node in guest.others.values()}
        print(json.dumps(told), flush=True)
        line = sys.stdin.readline()
        if not line:
            return
        if line == "plug\n":
            guest.plug()
        if line in ("stop\n", "cont\n"):
            guest.runs = line == "cont\n"
        for node in guest.all_nodes():
            node.write()


if __name__ == "__main__":
    main(*sys.argv[1:3])
