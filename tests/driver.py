"""Plays a script on a running gmd, and compares what each connection reads with what gm_play prints for the script."""
import contextlib
import re
import socket
import subprocess
import time

from loopback import (ALL_YOURS, CAN_DO, CAN_DO_TIMEOUT, CANT_DO, ECHO_REQ, ECHO_RES, GRAB_JOB, GRAB_JOB_ALL, GRAB_JOB_UNIQ, NO_JOB,
                      PATIENCE, PRE_SLEEP, RESET_ABILITIES, SET_CLIENT_ID, WORK_COMPLETE, WORK_DATA, WORK_EXCEPTION, WORK_FAIL, WORK_STATUS, WORK_WARNING,
                      Client, Server, kind_of, packet, unit_end, units_of)
from trials import Wrong

NOOP = packet(6, magic=b"\0RES")
ORDER = re.compile(r"open [^ ]+|close [0-9]{1,10}|tick [0-9]{1,20}|bytes [0-9]{1,10} ([0-9a-fA-F]{2})+")
# The types that are answered at their own slot perhaps not at all.
UNANSWERED = {CAN_DO, CANT_DO, RESET_ABILITIES, PRE_SLEEP, SET_CLIENT_ID, CAN_DO_TIMEOUT, ALL_YOURS, WORK_STATUS, WORK_COMPLETE,
              WORK_FAIL, WORK_EXCEPTION, WORK_DATA, WORK_WARNING}
MARK = b"driver"
TRYING = 120  # seconds, in which a script with ticks is tried again, whose orders are to be over in time
SHORT = 5  # seconds, after which nothing comes any more that is to come within one


class Late(Wrong):
    """What was found wrong when the server's second was over in which an order is to be played."""


def steps_of(gm_play, options, script):
    """The orders of a script, each with the lines that gm_play prints for it. Lines that are no order are left out."""
    orders = [line for line in script.split("\n") if ORDER.fullmatch(line)]
    # A mark prints 'bad line', and no order does.
    marked = "".join(f"{order}\nmark\n" for order in orders)
    done = subprocess.run([gm_play, *options], input=marked, capture_output=True, text=True, check=False)
    parts = done.stdout.split("bad line\n")
    if done.returncode != 0 or done.stderr or len(parts) != len(orders) + 1:
        raise Wrong(f"gm_play: status {done.returncode}, {done.stderr!r}")
    return list(zip(orders, (part.splitlines() for part in parts)))


def joined(script):
    """The script, in which pieces of one slot that follow each other are one."""
    return re.sub(r"^(bytes [0-9]+ )([0-9a-fA-F]+)\n(?:\1[0-9a-fA-F]+\n)+",
                  lambda found: found[1] + found[0].replace(found[1], "").replace("\n", "") + "\n", script, flags=re.M)


class Peer(Client):
    """A connection, and what it is to read. NOOPs are kept apart: they may come before or behind what else comes
    of a line, and are counted."""

    def __init__(self, port, source):
        super().__init__(port, source)
        self.rest = b""  # what was sent of a unit that isn't whole yet
        self.wanted, self.said, self.left = bytearray(), bytearray(), bytearray()
        self.noops = self.least = self.most = 0
        self.is_shut = False

    def wants(self, data, least=0, most=0):
        self.wanted += data
        self.least += least
        self.most += most

    def take(self):
        """Takes what comes, and answers whether something did."""
        try:
            piece = self.socket.recv(1 << 18)
        except ConnectionResetError:
            return False
        except TimeoutError:
            raise Wrong(f"it waits for {self.what_is_missing()}") from None
        self.left += piece
        begin = 0
        while end := unit_end(self.left, begin):
            if self.left[begin:end] == NOOP:
                self.noops += 1
            else:
                self.said += self.left[begin:end]
            begin = end
        del self.left[:begin]
        return len(piece) > 0

    def what_is_missing(self):
        return f"{bytes(self.wanted)[:100]!r} and {self.least} NOOPs, and has {bytes(self.said)[:100]!r} and {self.noops} NOOPs"

    def compare(self):
        if self.wanted != self.said or self.left or not self.least <= self.noops <= self.most:
            raise Wrong(f"it is to read {self.what_is_missing()}, and then {bytes(self.left)[:100]!r}")
        self.wanted.clear()
        self.said.clear()

    def reads(self):
        """All comes that it is to read."""
        while len(self.said) < len(self.wanted) or self.noops < self.least:
            if not self.take():
                raise Wrong(f"it ends, and waits for {self.what_is_missing()}")
        self.compare()

    def ends(self):
        """The same, and then the server ends it without a further byte. It waits then for the peer's end."""
        while self.take():
            pass
        self.compare()
        with contextlib.suppress(OSError):
            self.socket.shutdown(socket.SHUT_WR)

    def lists(self):
        """The lines that `workers` gets."""
        self.send(b"workers\n")
        lines = []
        while lines[-1:] != [b".\n"]:
            if not self.take():
                raise Wrong("it ends before a list")
            units, rest = units_of(self.said)
            lines += units
            self.said[:] = rest
        return lines


def noops_of(units, noops):
    """The least and the most NOOPs that come of what a slot sends, where this many come if they are taken at the end of it: a grab
    withdraws one that isn't taken yet, and a slot can sleep again after one that is."""
    kinds = [kind_of(unit) for unit in units]
    has_grab = any(kind in kinds for kind in (GRAB_JOB, GRAB_JOB_UNIQ, GRAB_JOB_ALL))
    return 0 if has_grab else noops, max(noops, kinds.count(PRE_SLEEP) + 1) if len(kinds) > 1 else noops


class Seconds:
    """The seconds of a server, of which the first began when the server was started, or as late as it was heard to listen. All up to
    a tick of the script is played in one of them, and what comes behind it in a later one."""

    def __init__(self, server):
        self.begun, self.heard = server.begun, server.heard
        self.second = 0
        self.moment = 0  # the script's

    def tick(self, moment):
        """Waits for the second of this tick, which is a later one."""
        self.second += max(1, moment - self.moment)
        self.moment = max(moment, self.moment)
        time.sleep(max(0, self.heard + self.second - time.monotonic()))

    def is_over(self):
        """Whether the second may be over."""
        return time.monotonic() >= self.begun + self.second + 1


class Player:
    """Plays on a server that was just started."""

    def __init__(self, server, bytewise, has_ticks):
        self.server = server
        self.patience = SHORT if has_ticks else PATIENCE
        self.seconds = Seconds(server)
        self.bytewise = bytewise
        self.peers = {}  # by slot
        self.served = 0
        self.is_over = False

    def play(self, order, printed):
        """Plays an order, and waits until all has come of it."""
        word, *rest = order.split(" ")
        told, shut = {}, []
        for line in printed:
            slot, _, what = line.partition(" ")
            if what == "shut":
                shut.append(int(slot))
            elif what != "open" and slot != "refused":
                data = bytes.fromhex(what)
                told[int(slot)] = data.removesuffix(NOOP), int(data.endswith(NOOP))
        self.is_over = self.is_over or len(shut) > 1 or any(told.get(slot, (b"",))[0].endswith(b"OK\n") for slot in shut)
        if word == "open":
            self.open(rest[0], printed)
        elif word == "tick":
            self.tick(int(rest[0]), told)
        elif (slot := int(rest[0])) in self.peers and word == "close":
            self.close(slot, told)
        elif slot in self.peers:
            self.send(slot, bytes.fromhex(rest[1]), told, shut)

    def connect(self, address="127.0.0.1"):
        peer = Peer(self.server.port, address)
        peer.socket.settimeout(self.patience)
        return peer

    def open(self, address, printed):
        """Opens a connection. One that is refused is closed without a byte."""
        try:
            peer = self.connect(address)
        except (ConnectionRefusedError, ConnectionResetError):  # reset, where the program ends as the connection comes
            if printed != ["refused 13"] or not self.is_over:
                raise Wrong("it doesn't listen") from None
            return
        if printed[0].startswith("refused"):
            try:
                peer.ends()
            except Wrong:  # where the program ended as the connection came, the system may forget it and tell it nothing
                if not self.is_over or self.server.process.poll() is None or peer.said or peer.left:
                    raise
            peer.close()
            return
        self.asks(peer)
        peer.reads()
        self.peers[int(printed[0].split(" ")[0])] = peer
        self.served += 1

    def asks(self, peer):
        """Has an echo come behind all that the connection sent, which makes sure that this was served."""
        peer.send(packet(ECHO_REQ, MARK))
        peer.wants(packet(ECHO_RES, MARK, magic=b"\0RES"))

    def write(self, peer, data):
        try:
            if not self.bytewise:
                return peer.send(data)
            for at in range(len(data)):
                peer.send(data[at : at + 1])
                if at % 25 == 24:
                    time.sleep(0.001)
        except (BrokenPipeError, ConnectionResetError):
            if not peer.is_shut:
                raise Wrong("it is ended early") from None

    def send(self, slot, data, told, shut):
        """Sends a piece. Where its last unit isn't answered, an echo comes behind that unit."""
        peer = self.peers[slot]
        units, rest = units_of(peer.rest + data)
        for other, (more, noops) in told.items():
            self.peers[other].wants(more, *(noops_of(units, noops) if other == slot else (noops, noops)))
        was_shut, peer.is_shut = peer.is_shut, peer.is_shut or slot in shut
        if units and not peer.is_shut and kind_of(units[-1]) in UNANSWERED:
            first = len(data) - len(rest)
            self.write(peer, data[:first])
            self.asks(peer)
            self.write(peer, data[first:])
        else:
            self.write(peer, data)
        peer.rest = rest
        for other in sorted(shut):
            self.peers[other].is_shut = True
            self.peers[other].ends()
        for other, found in self.peers.items():
            if other == slot and not was_shut or other in told:
                if not found.is_shut:
                    found.reads()
        for other in shut:
            self.until_closed(other)

    def tick(self, moment, told):
        """Each connection reads what comes of it, and an echo behind that. The grab of one more makes sure that it was made."""
        if not self.served:
            self.seconds.moment = moment  # the script's clock begins there
            return
        self.seconds.tick(moment)
        grabber = self.connect()
        self.served += 1
        grabber.request(GRAB_JOB)
        grabber.wants(packet(NO_JOB, magic=b"\0RES"))
        grabber.reads()
        for slot, peer in self.peers.items():
            more, noops = told.get(slot, (b"", 0))
            peer.wants(more, noops, noops)
            self.asks(peer)
            peer.reads()
        grabber.close()
        self.until_closed(next(slot for slot in range(len(self.peers) + 1) if slot not in self.peers))

    def close(self, slot, told):
        self.peers.pop(slot).close()
        for other, (more, noops) in told.items():
            self.peers[other].wants(more, noops, noops)
            self.peers[other].reads()
        self.until_closed(slot)

    def asker(self):
        """A connection that isn't in the middle of a unit."""
        return next((peer for peer in self.peers.values() if not peer.rest and not peer.is_shut), None)

    def until_closed(self, slot):
        """Waits until the server has no connection in this slot, if another one can ask."""
        if asker := self.asker():
            begun = time.monotonic()
            while any(line.startswith(b"%d " % slot) for line in asker.lists()):
                if time.monotonic() > begun + PATIENCE:
                    raise Wrong(f"slot {slot} isn't closed")

    def shut_down(self):
        """Shuts the server down, by a connection of the script or by another. A slot may have to be given up first."""
        begun = time.monotonic()
        while not self.is_over:
            if not (peer := self.asker()):
                peer = self.connect()
                peer.send(packet(ECHO_REQ, MARK))
                if not peer.take():
                    peer.close()
                    if time.monotonic() > begun + PATIENCE:
                        raise Wrong("no other connection is served")
                    continue
                peer.said.clear()
                self.served += 1
                self.peers[len(self.peers) + 1024] = peer
            peer.send(b"shutdown\n")
            peer.wants(b"OK\n")
            self.is_over = True

    def finish(self):
        """Ends the server. Nothing more comes to any connection, but for a NOOP where the job of another, which ends before it, waits
        again. The server says how many connections there were."""
        self.shut_down()
        for peer in self.peers.values():
            peer.socket.settimeout(PATIENCE)
            peer.wants(b"", 0, 1)
            peer.ends()
            peer.close()
        self.server.ended(0, f"gmd: ended, connections served: {self.served}\n")


def play_once(gmd, options, steps, bytewise):
    has_ticks = any(order.startswith("tick") for order, _ in steps)
    with Server(gmd, *options) as server:
        if not server.is_listening():
            raise Wrong(server.errors())
        player = Player(server, bytewise, has_ticks)
        for number, (order, printed) in enumerate(steps):
            try:
                player.play(order, printed)
                if has_ticks and player.seconds.is_over():
                    raise Wrong("it takes too long")
            except (Wrong, OSError) as wrong:
                is_late = has_ticks and player.seconds.is_over()
                raise (Late if is_late else Wrong)(f"{' '.join(options)}: order {number}, {order[:100]}: {wrong}") from None
        player.finish()
        if "--tape" in options and "gmd: the tape agrees with what the connections were told, entries: " not in server.errors():
            raise Wrong(server.errors())


def play(gmd, options, steps, bytewise=False):
    """Plays the steps of a script on a gmd with these options, and again where something was found wrong too late."""
    end = time.monotonic() + TRYING
    while True:
        try:
            return play_once(gmd, options, steps, bytewise)
        except Late:
            if time.monotonic() > end:
                raise
