"""A lab for the tools around the daemon: it starts m2ua-gateway and controllers, and compares what went to
and fro with what `replay` says.

What is compared: the daemon's journal has each event in its sequence. `replay`, which is proved, says the
orders of each, as words and as bytes. So of each association it is known what has to come out of it; the
controllers' records say what did."""
import contextlib
import os
import pathlib
import random
import re
import select
import shutil
import signal
import socket
import subprocess
import tempfile
import threading
import time

ROOT = pathlib.Path(__file__).resolve().parents[2]
# M2UA_BIN names the folder of another m2ua-gateway and m2ua-asp to be tried; M2UA_KEEP one to which all files
# of a lab that failed are copied
BIN = pathlib.Path(os.environ.get("M2UA_BIN", ROOT / "rust/m2ua-gateway/target/release"))
REPLAY = ROOT / "target/bin/replay"
LINK_SIDE = 255
UDP = 9899


class Failure(Exception):
    pass


def need(condition, what):
    if not condition:
        raise Failure(what)


def until(condition, what, seconds=10):
    """Waits for a condition, and hands out what it gave."""
    end = time.monotonic() + seconds
    while True:
        got = condition()
        if got:
            return got
        need(time.monotonic() < end, f"did not come about within {seconds} s: {what}")
        time.sleep(0.002)


def has_sctp():
    asked = subprocess.run(["ldd", BIN / "m2ua-gateway"], capture_output=True, text=True, check=True)
    return "libusrsctp" in asked.stdout


def has_kernel_sctp():
    try:
        socket.socket(socket.AF_INET, socket.SOCK_STREAM, socket.IPPROTO_SCTP).close()
    except OSError:
        return False
    return True


class Lab:
    """A daemon over a plan, in a folder of its own. It can be ended, or killed, and started
    again: its runs are numbered. sctp: False for Unix sockets; True for libusrsctp inside UDP; "ip" for
    libusrsctp over IP; "kernel" for the kernel's SCTP; "mixed" for a gateway by the kernel's with peers by
    libusrsctp inside UDP."""

    def __init__(self, plan, *options, sctp=False, address="127.0.0.1", log_file=False):
        self.folder = tempfile.TemporaryDirectory(prefix="m2ua-")
        self.dir = pathlib.Path(self.folder.name)
        self.plan = self.dir / "plan.txt"
        self.plan.write_text(plan)
        self.names = re.findall(r"^asp (\S+)", plan, re.M)
        self.ports = {name: int(port) for name, port in re.findall(r"^asp (\S+) .*from \S+:(\d+)", plan, re.M)}
        self.sctp, self.address = sctp, address
        self.controllers, self.runs, self.killed = [], 0, set()
        if has_kernel_sctp():
            # the kernel's own port of SCTP inside UDP
            pathlib.Path("/proc/sys/net/sctp/udp_port").write_text(str(UDP if sctp == "mixed" else 0))
        by_kernel = ["--sctp-kernel", address]
        ways = {False: [], True: ["--sctp", address, "--udp", str(UDP)], "ip": ["--sctp", address], "kernel": by_kernel, "mixed": by_kernel}
        extra = list(ways[sctp])
        extra += ["--log-file", self.dir / "log"] if log_file else []
        words = [BIN / "m2ua-gateway", "--dir", self.dir, "--journal", self.dir / "journal", *extra, *options, self.plan]
        self.words = [str(w) for w in words]
        self.start()

    def start(self, **more):
        """A run of the daemon, behind the one before."""
        self.runs += 1
        before = len(self.text()) if self.runs > 1 else 0
        with open(self.dir / "log", "ab") as log:
            self.daemon = subprocess.Popen(self.words, stderr=log, **more)
        until(lambda: "ready" in self.text()[before:] or self.daemon.poll() is not None, "the daemon is ready")
        need(self.daemon.poll() is None, f"the daemon ended at once: {self.text()}")

    def kill(self):
        """The daemon dies at once."""
        self.killed.add(self.runs)
        self.daemon.kill()
        self.daemon.wait()

    def __enter__(self):
        return self

    def __exit__(self, kind, *_):
        for controller in self.controllers:
            controller.end(kill=True)
        if self.daemon.poll() is None:
            self.daemon.kill()
        self.daemon.wait()
        if kind is not None:
            lines = [line for line in self.text().splitlines() if ": Error 6 (" not in line]
            print("\n".join(lines[-30:]))
            if keep := os.environ.get("M2UA_KEEP"):
                shutil.copytree(self.dir, keep, dirs_exist_ok=True, ignore=lambda folder, names: [n for n in names if pathlib.Path(folder, n).is_socket()])
        self.folder.cleanup()

    def text(self, start=0):
        """The log, from a place on."""
        with open(self.dir / "log", "rb") as log:
            log.seek(start)
            return log.read().decode()

    def asp(self, name, *options):
        start = (self.dir / "log").stat().st_size
        made = Controller(self, name, options, sctp=self.sctp)
        self.controllers.append(made)
        if self.sctp:
            # SCTP makes an association before the daemon has heard of it: one that ends until then it never
            # has
            try:
                until(lambda: f" {name}: association (" in self.text(start), f"the association of {name} begins")
            except Failure as why:
                raise Failure(f"{why}; {self.why_not(made, start)}") from why
        return made

    def why_not(self, controller, start):
        """What the log says of a controller, and the controller itself."""
        lines = [line for line in self.text(start).splitlines() if f" {controller.name}: " in line or " sctp: " in line]
        ended = controller.process.poll()
        said = "it is there" if ended is None else f"it ended with {ended}: {controller.process.stderr.read().strip()}"
        return f"{said}; the log: {lines[-5:]}"

    def where(self, port):
        """How a controller comes by SCTP, from a port of its own."""
        Controller.count += 1
        own = ["--from", f"[{self.address}]:{port}" if ":" in self.address else f"{self.address}:{port}"]
        if self.sctp == "kernel":
            return ["--sctp-kernel", self.address, *own]
        if self.sctp == "ip":
            return ["--sctp", self.address, *own]
        return ["--sctp", self.address, *own, "--udp", str(20000 + Controller.count % 20000)]

    def links(self, *options):
        made = Controller(self, "links", options)
        self.controllers.append(made)
        return made

    def dump(self):
        """The dump after a signal, as a table by the first word of each line."""
        path = self.dir / "state"
        path.unlink(missing_ok=True)
        self.daemon.send_signal(signal.SIGUSR1)
        until(path.exists, "the dump")
        lines = [line.split(" ", 1) for line in path.read_text().splitlines() if not line.startswith("#")]
        found = {word: rest for word, rest in lines if word in ("events", "sound", "state")}
        return found | {"run": self.runs, "lines": [" ".join(line) for line in lines]}

    def stop(self):
        """Ends the daemon as an operator would, and sees that it left nothing behind."""
        self.daemon.send_signal(signal.SIGTERM)
        need(self.daemon.wait(10) == 0, f"the daemon ended with {self.daemon.returncode}")
        left = [p.name for p in self.dir.iterdir() if p.is_socket()]
        need(left == [], f"sockets left behind: {left}")


class Relay(threading.Thread):
    """A bad network for SCTP inside UDP, on a port of its own: of what goes through it some packets are lost,
    some come twice, some late."""

    def __init__(self, port, seed, lost=0.02, doubled=0.01, late=0.02):
        super().__init__(daemon=True)
        self.dice, self.chances, self.counts = random.Random(seed), {"lost": lost, "doubled": doubled, "late": late}, {"packets": 0, "lost": 0, "doubled": 0, "late": 0}
        self.front = socket.socket(socket.AF_INET, socket.SOCK_DGRAM)
        self.front.bind(("127.0.0.1", port))
        self.backs, self.held, self.over = {}, [], False
        self.start()

    def run(self):
        while not self.over:
            for ready in select.select([self.front, *self.backs.values()], [], [], 0.005)[0]:
                packet, peer = ready.recvfrom(65536)
                if ready is self.front:
                    back = self.backs.setdefault(peer, socket.socket(socket.AF_INET, socket.SOCK_DGRAM))
                    self.passes(lambda back=back, packet=packet: back.sendto(packet, ("127.0.0.1", UDP)))
                else:
                    client = next(at for at, back in self.backs.items() if back is ready)
                    self.passes(lambda client=client, packet=packet: self.front.sendto(packet, client))
            while self.held and self.held[0][0] <= time.monotonic():
                self.held.pop(0)[1]()

    def passes(self, send):
        self.counts["packets"] += 1
        fate = self.dice.random()
        for what, chance in self.chances.items():
            if fate < chance:
                self.counts[what] += 1
                break
            fate -= chance
        else:
            what = "passed"
        if what == "late":
            self.held.append((time.monotonic() + 0.02, send))
        elif what != "lost":
            send()
            if what == "doubled":
                send()

    def end(self):
        self.over = True
        self.join()
        for each in [self.front, *self.backs.values()]:
            each.close()


class Controller:
    """An m2ua-asp that gets its commands one by one."""

    count = 0

    def __init__(self, lab, name, options=(), sctp=False, where=None, within=()):
        """where: another way to the daemon than the lab's own; within: words that run it elsewhere."""
        Controller.count += 1
        self.lab, self.name, self.waiting, self.killed, self.run = lab, name, 0, False, lab.runs
        self.record = lab.dir / f"record-{Controller.count}"
        if where is None and sctp:
            where = lab.where(lab.ports[name])
        elif where is None:
            where = ["--unix", lab.dir / (name if name == "links" else f"asp-{name}")]
        words = [*within, BIN / "m2ua-asp", "--quiet", "--record", self.record, *where, *options, "-"]
        self.process = subprocess.Popen([str(w) for w in words], stdin=subprocess.PIPE, stdout=subprocess.PIPE, stderr=subprocess.PIPE, text=True)
        self.waiting = 1
        self.join()

    def start(self, commands):
        """Gives commands, and does not wait for them."""
        self.process.stdin.write(commands + "\n")
        self.process.stdin.flush()
        # a repeat with all in it is one command
        depth, count = 0, 0
        for line in commands.splitlines():
            word = (line.split() or [""])[0]
            depth += (word == "repeat") - (word == "end")
            count += depth == 0 and line.strip() != ""
        self.waiting += count

    def join(self):
        """Waits until all commands are done."""
        while self.waiting:
            self.said()

    def do(self, *commands):
        for command in commands:
            self.start(command)
            self.join()

    def fails(self, command):
        """Gives a command that cannot succeed: what is said of it. The process may have ended before, for the
        same reason."""
        try:
            self.start(command)
        except BrokenPipeError:
            self.waiting += 1
        said = self.process.stdout.read()
        need(said.count("\n") < self.waiting, f"{self.name}: {command} succeeded")
        return self.process.stderr.read().strip()

    def said(self):
        """Takes what the process says: 'ok' for each command that is done."""
        text = os.read(self.process.stdout.fileno(), 3 * self.waiting).decode()
        need(text.startswith("ok\n"), f"{self.name}: {text.strip() or self.process.stderr.read().strip()}")
        self.waiting -= text.count("\n")

    def idle(self):
        """Whether all commands are done, without waiting for them."""
        while self.waiting and select.select([self.process.stdout], [], [], 0)[0]:
            self.said()
        return self.waiting == 0

    def stop(self):
        """It does nothing more, as a process that hangs."""
        self.process.send_signal(signal.SIGSTOP)

    def go_on(self):
        self.process.send_signal(signal.SIGCONT)

    def kill(self):
        self.killed = True
        self.process.kill()
        self.process.wait()
        self.end()

    def end(self, kill=False):
        if kill:
            self.process.kill()
        if not self.process.stdin.closed:
            try:
                self.process.stdin.close()
            except BrokenPipeError:
                pass
        self.process.wait()
        self.process.stdout.close()
        self.process.stderr.close()

    def segments(self):
        """Of each association what was sent and what was received, as lists of hex. Of a message that is too
        long the gateway sees the first 2,049 bytes."""
        made = []
        # the last line of a process that was killed may be cut off
        for line in self.record.read_text().split("\n")[:-1]:
            if line.startswith("#"):
                made.append(([], []))
            else:
                made[-1][line[0] == "<"].append(line[2:2 + 2 * 2049])
        return made


def word(number):
    return f"{number:08x}"


def parameters(message):
    """The parameters of a message in hex: tag and value in hex."""
    at, found = 16, []
    while at < len(message):
        tag, length = int(message[at:at + 4], 16), int(message[at + 4:at + 8], 16)
        found.append((tag, message[at + 8:at + 2 * length]))
        at += 2 * ((length + 3) // 4 * 4)
    return found


def written(kind, *pars):
    """A message of class 6 in hex."""
    body = "".join(f"{tag:04x}{4 + len(value) // 2:04x}{value}" + "00" * (-(len(value) // 2) % 4) for tag, value in pars)
    return f"010006{kind:02x}" + word(8 + len(body) // 2) + body


def to_link_side(order, event):
    """The message of an order to the link side: what its words say, and of the ASP's message the unit or the
    sequence number."""
    _, kind, subject, value = order
    kind -= 6 * 256
    said = dict(parameters(event.split()[-1]))
    pars = [(0x1, word(subject))]
    if kind == 1:
        pars += [(tag, said[tag]) for tag in (0x300, 0x301) if tag in said]
    elif kind == 7:
        pars.append((0x302, word(value)))
    elif kind == 10:
        pars.append((0x306, word(value)))
        pars += [(0x307, said[0x307])] if 0x307 in said else []
    return written(kind, *pars)


def orders_of(answer):
    return [tuple(int(n) for n in one.split(",")) for one in re.findall(r"\(([0-9,]+)\)", answer)]


def replayed(lines):
    """The answers of `replay` to commands, line by line. All of it goes through pipes: a comparison needs no
    room, where the journal of a million messages and what is asked about it would fill a small machine."""
    faults = []

    def feed():
        try:
            process.stdin.writelines(lines)
        except BrokenPipeError:
            pass  # whoever asked has seen enough, or `replay` has ended: its status says so
        except Exception as why:  # of the lines themselves
            faults.append(why)
        with contextlib.suppress(BrokenPipeError):
            process.stdin.close()

    # wide pipes: on one processor each turn of the two costs as much as many lines
    process = subprocess.Popen([REPLAY], stdin=subprocess.PIPE, stdout=subprocess.PIPE, text=True, pipesize=1 << 20)
    feeder = threading.Thread(target=feed, daemon=True)
    feeder.start()
    try:
        yield from process.stdout
    except GeneratorExit:
        process.kill()
        raise
    finally:
        feeder.join()
        process.stdout.close()
        process.wait()
    for why in faults:
        raise why
    need(process.returncode == 0, f"replay ended with {process.returncode}")


def events_of(lab, journals):
    """The lines of journals, one file behind the other."""
    for name in journals:
        with open(lab.dir / name) as lines:
            yield from lines


class Tape:
    """What a peer has recorded, association by association, against what the journal says. SCTP keeps the
    sequence within a stream alone: there the messages of each stream are compared among themselves."""

    def __init__(self, name, streams):
        self.name, self.counted, self.number = name, 0, 0
        self.segments, self.open, self.whole, self.streams = iter(()), False, True, streams

    def fault(self, what):
        raise Failure(f"{self.name}, association {self.number}: {what}")

    def run(self, segments, whole):
        """A run of the daemon begins, with the associations that it had. Of one that was killed some were
        perhaps never accepted: nothing was received there."""
        self.end()
        for _, received in self.segments:
            if self.whole or received:
                self.fault(f"an association that the journal does not know, where {len(received)} messages were received")
        self.segments, self.whole = iter(segments), whole

    def stream(self, message):
        """Stream 1 is that of traffic, classes 4 and 6."""
        return int(self.streams and message[4:6] in ("04", "06"))

    def parted(self, messages):
        return [iter([m for m in messages if self.stream(m) == stream]) for stream in (0, 1)]

    def begin(self):
        self.number, self.open, self.missing = self.number + 1, True, [0, 0]
        segment = next(self.segments, None)
        if segment is None:
            self.fault("nobody has a record of it")
        self.sent, self.received = map(self.parted, segment)

    def event(self, message):
        was = next(self.sent[self.stream(message)], None)
        if not self.open or was != message:
            self.fault(f"an event with {message}, and what was sent is {was}")
        self.counted += 1

    def due(self, message):
        if not self.open:
            return
        stream = self.stream(message)
        got = next(self.received[stream], None)
        if got is None:
            self.missing[stream] += 1
        elif self.missing[stream] or got != message:
            self.fault(f"received {got}, and due was {message}")
        else:
            self.counted += 1

    def end(self):
        """The association is over: nothing may be left that was received and not due; of one that was not
        killed nothing is missing."""
        if not self.open:
            return
        self.open = False
        for stream in (0, 1):
            left = next(self.received[stream], None)
            if left is not None:
                self.fault(f"received {left}, and nothing more was due")
            if self.whole and (self.missing[stream] or next(self.sent[stream], None) is not None):
                self.fault(f"{self.missing[stream]} messages that were due are missing, or one that was sent is no event")


def segments_of(lab, name, run):
    """The records of a peer in a run. That a link is in service, or is not, is an event without a message;
    and what is no event is answered by an Error that replay knows nothing of."""
    for controller in lab.controllers:
        if (controller.name, controller.run) == (name, run):
            for sent, received in controller.segments():
                if name == "links":
                    sent = [m for m in sent if m[:6] != "010006" or m[6:8] not in ("03", "05", "06")]
                    received = [m for m in received if m[:8] != "01000000"]
                # the daemon's own Heartbeats are no orders; their Acks are events
                yield sent, [m for m in received if m[:8] != "01000303"]


class Units:
    """What has to become of the units of each AS, by the answers of `replay`: counted here apart from the
    daemon."""

    NAMES = ("arrived", "passed-on", "held", "turned-away", "discarded", "no-recipient")

    def __init__(self, plan):
        self.names = re.findall(r"^as (\S+)", plan, re.M)
        self.owner = {}
        for first, last, name in re.findall(r"^link (\d+)(?:-(\d+))?\s+as (\S+)", plan, re.M):
            self.owner |= {link: self.names.index(name) for link in range(int(first), int(last or first) + 1)}
        self.begin()

    def begin(self):
        self.of = [dict.fromkeys(self.NAMES, 0) for _ in self.names]
        self.copies = [0] * len(self.names)

    @staticmethod
    def asks(line, answer):
        """Whether the state behind an event says what became of its unit."""
        return is_data(line) and answer.startswith("N 0")

    def count(self, line, answer, state):
        if answer.startswith("R"):
            return
        out = [self.owner[order[2]] for order in orders_of(answer) if order[0] != LINK_SIDE and order[1] == 6 * 256 + 1]
        for a in out:
            self.copies[a] += 1
        word = line.split()
        if is_data(line):
            a = self.owner[int(dict(parameters(word[2]))[1], 16)]
            self.of[a]["arrived"] += 1
            self.of[a]["passed-on" if out else self.fate(a, state)] += 1
        elif word[0] == "recovery":
            self.moves(int(word[1]), "discarded", self.of[int(word[1])]["held"])
        else:
            for a in out:
                self.moves(a, "passed-on", 1)

    def fate(self, a, state):
        """A unit that nobody gets: held, turned away, or without a recipient."""
        parts = dict(part.split("=") for part in state.split())
        held = sum(1 for unit in parts["held"].split(",") if unit.split(":")[0] == str(a))
        if held > self.of[a]["held"]:
            return "held"
        return "turned-away" if parts["waiting"][a] == "1" else "no-recipient"

    def moves(self, a, to, count):
        self.of[a]["held"] -= count
        self.of[a][to] += count

    def check(self, dump):
        """The dump has the same counts, and all of them have their place."""
        for a, name in enumerate(self.names):
            said = unit_counts(dump, "units", name)
            need(said == self.of[a], f"units of {name}: the daemon counts {said}, and due is {self.of[a]}")
            need(said["arrived"] == sum(said.values()) - said["arrived"], f"units of {name} without a place: {said}")
            for way in ("units-to-asps", "units-to-links"):
                on = unit_counts(dump, way, name)
                need(on["ordered"] == sum(on.values()) - on["ordered"], f"{way} of {name} without a place: {on}")
                need(way == "units-to-links" or on["ordered"] == self.copies[a], f"{way} of {name}: {on}, and due are {self.copies[a]}")


def unit_counts(dump, word, name):
    """The counts in a line about units."""
    line = next((line for line in dump["lines"] if line.startswith(f"{word} {name} ")), None)
    need(line, f"the dump does not say what became of units: {word} {name}")
    return {what: int(count) for what, count in re.findall(r"([a-z-]+) (\d+)", line)}


def is_data(line):
    return line.startswith("linkmsg ") and line.split()[2][4:8] == "0601"


def scripted(journal, answers, states):
    """A script that asks for the bytes of each order to an ASP, then runs the event, and asks for the state
    where it is wanted."""
    events = (line for line in journal if not line.startswith("#"))
    run, number = 0, 0
    for line, answer in zip(events, answers):
        # a plan has an answer without orders
        run, number = (run + 1, 0) if line.startswith("plan ") else (run, number + 1)
        places = [place for place, order in enumerate(orders_of(answer)) if order[0] != LINK_SIDE]
        yield "".join(f"bytes {place} 2048 {line}" for place in places) + line
        yield "state\n" * (((run, number) in states) + Units.asks(line, answer))


def compared(lab, whole=True, dumps=(), journals=("journal",)):
    """Compares the records of all controllers, and dumps, with what `replay` says of the journal, which may
    lie in several files. whole: nobody was killed, so nothing may be missing."""
    states = {(dump["run"], sum(int(n) for n in dump["events"].split()[::2])): dump for dump in dumps}
    lines = lambda: events_of(lab, journals)
    answers = replayed(scripted(lines(), replayed(lines()), states))
    with contextlib.closing(answers):
        return Comparison(lab, whole, states).over(lines(), answers) | {"dumps": len(states)}


class Comparison:
    """A journal followed line by line, with the answers of `replay` to each."""

    def __init__(self, lab, whole, states):
        self.lab, self.whole, self.states, self.run, self.number, self.lost = lab, whole, states, 0, 0, set()
        self.tapes = {name: Tape(name, lab.sctp and name != "links") for name in [*lab.names, "links"]}
        self.units = Units(lab.plan.read_text())
        self.counts = {"runs": 0, "events": 0, "orders": 0, "associations": 0}

    def over(self, lines, answers):
        for line in map(str.strip, lines):
            if line.startswith("# m2ua-gateway "):
                continue
            if line.startswith("#"):
                self.note(*line.split()[1:])
            elif line.startswith("plan "):
                need(next(answers) == "0\n", "replay loads the plan")
                self.begin()
            else:
                self.event(line, answers)
        need(self.run == self.lab.runs, f"the journal has {self.run} runs of {self.lab.runs}")
        for tape in self.tapes.values():
            tape.run((), True)
        messages = sum(tape.counted for tape in self.tapes.values())
        return self.counts | {"messages": messages, "runs": self.run if self.run > 1 else 0}

    def begin(self):
        """A run of the daemon: its state is fresh."""
        self.run, self.number, self.lost = self.run + 1, 0, set()
        self.units.begin()
        for name, tape in self.tapes.items():
            tape.run(segments_of(self.lab, name, self.run), self.whole and self.run not in self.lab.killed)

    def note(self, socket, what):
        """An association begins or ends. The loss of one is an event before the next one of the ASP begins:
        else what others order for the ASP, before its loss, would go to one that has not come up."""
        name = socket.removeprefix("asp-")
        if what == "begins":
            need(name not in self.lost, f"an association of {name} begins before the loss of the one before it")
            self.counts["associations"] += 1
            self.tapes[name].begin()
        else:
            self.lost |= {name} - {"links"}
            self.tapes[name].end()

    def event(self, line, answers):
        """One event: what was sent, what is due of its orders, and a dump behind it."""
        messages = []
        while (answer := next(answers).rstrip("\n")).startswith("0 "):
            messages.append(answer[2:])
        self.number += 1
        self.counts["events"] += 1
        parts = line.split()
        if parts[0] == "lost":
            self.lost.discard(self.lab.names[int(parts[1])])
        if parts[0] == "msg":
            self.tapes[self.lab.names[int(parts[1])]].event(parts[3])
        elif parts[0] == "linkmsg":
            self.tapes["links"].event(parts[2])
        self.orders(line, answer, messages)
        self.units.count(line, answer, next(answers) if Units.asks(line, answer) else None)
        if dump := self.states.get((self.run, self.number)):
            state = next(answers).rstrip("\n")
            need(dump["sound"] == "yes" and dump["state"] == state, f"the dump after {self.number} events is\n{dump['state']}\nand not\n{state}")
            self.units.check(dump)

    def orders(self, line, answer, messages):
        messages = iter(messages)
        for order in orders_of(answer):
            self.counts["orders"] += 1
            if order[0] == LINK_SIDE:
                self.tapes["links"].due(to_link_side(order, line))
            else:
                self.tapes[self.lab.names[order[0]]].due(next(messages))
        need(next(messages, None) is None, f"as many messages as orders: {line}")


def told(counts):
    return ", ".join(f"{count} {what}" for what, count in counts.items() if count) + " compared"
