"""Scenarios of SCTP for try-daemon: what a peer grants, how soon silence is noticed, restarts, addresses. On
this machine by libusrsctp, inside UDP and over IP; in the machine of try-kernel-sctp by the kernel's SCTP,
with cables that can be cut."""
import datetime
import re
import socket
import subprocess
import time

from lab import BIN, UDP, Controller, Lab, Relay, need, until

PLAN = """
asp left  id 7 from 127.0.0.1:5001
asp right id 8 from 127.0.0.1:5002
as east mode override members left right
link 100-115 as east
"""


def has_raw():
    """Whether SCTP may be sent over IP."""
    try:
        socket.socket(socket.AF_INET, socket.SOCK_RAW, socket.IPPROTO_SCTP).close()
    except OSError:
        return False
    return True


def shell(line):
    done = subprocess.run(line, shell=True, capture_output=True, text=True)
    need(done.returncode == 0, f"{line}: {done.stderr.strip()}")
    return done.stdout


def active(asp):
    asp.do("up", "wait for up-ack", "active", "wait for notify status active")
    asp.do("establish-request link 100", "wait for establish-confirm link 100")


def echoes(asp, count):
    """Units go to the simulated link and come back."""
    asp.do(f"repeat {count}\ndata link 100 data counter\nwait for data link 100\nend")


def streams(way):
    """A peer that grants one stream has all on it."""
    with Lab(PLAN, "--links", "loop", sctp=way) as lab:
        left, right = lab.asp("left", "--streams", "1"), lab.asp("right", "--streams", "2")
        active(left)
        echoes(left, 20)
        right.do("up", "wait for up-ack", "active", "wait for active-ack")
        right.do("data link 100 data 01", "wait for data link 100")
        left.do("wait for notify status other-active")
        lab.stop()
    return "served, with one stream and with two"


def stamp(line):
    return datetime.datetime.fromisoformat(line.split()[0].replace("Z", "+00:00")).timestamp()


def sixteen():
    """A plan of sixteen ASPs."""
    names = [f"asp{k}" for k in range(16)]
    rows = [f"asp {name} id {k} from 127.0.0.1:{5100 + k}" for k, name in enumerate(names)]
    return names, "\n".join([*rows, "as all mode broadcast members " + " ".join(names), "link 100 as all\n"])


def over(lab, name):
    """When the log said that an association was over."""
    found = re.search(rf"^(\S+) {name}: the association is over", lab.text(), re.M)
    return found and stamp(found.group(0))


def noticed(lab, since, limit):
    """How long after its time each loss was noticed, at most."""
    until(lambda: all(over(lab, name) for name in since), "each loss is noticed", limit / 1000 + 5)
    late = max(over(lab, name) - when for name, when in since.items())
    need(late <= limit / 1000, f"noticed after {1000 * late:.0f} ms, and {limit} were said")
    return late


def idle(way, limit=1000):
    """Sixteen idle peers are killed, one after the other: each is noticed within --dead."""
    names, plan = sixteen()
    with Lab(plan, "--log", "changes", "--dead", str(limit), sctp=way) as lab:
        asps = {name: lab.asp(name, "--dead", "20000") for name in names}
        time.sleep(limit / 1000)
        since = {}
        for name, asp in asps.items():
            since[name] = time.time()
            asp.kill()
            time.sleep(0.037)
        late = noticed(lab, since, limit)
        lab.stop()
    return f"16 killed, noticed after {1000 * late:.0f} ms at most, of {limit}"


def cut(way, limit=1000, count=16):
    """A cable is cut, with idle peers behind it and with some that messages are under way for."""
    names, plan = sixteen()
    relay = Relay(UDP - 1, 1, lost=0, doubled=0, late=0) if way is True else None
    through = ("--gateway-udp", str(UDP - 1)) if relay else ()
    try:
        with Lab(plan, "--log", "changes", "--dead", str(limit), "--links", "loop", sctp=way) as lab:
            asps = [lab.asp(name, "--dead", "20000", *through) for name in names[:count]]
            for asp in asps[:count // 2]:
                asp.do("up", "wait for up-ack", "active", "wait for active-ack")
            time.sleep(limit / 1000)
            # messages that nobody acknowledges any more, for half of them
            asps[0].start("repeat 100\nbeat\nsleep 5\nend")
            if relay:
                relay.chances = {"lost": 1.0}
            else:
                shell("tc qdisc add dev lo root netem loss 100%")
            when = time.time()
            late = noticed(lab, {name: when for name in names[:count]}, limit)
    finally:
        if relay:
            relay.end()
        else:
            shell("tc qdisc del dev lo root")
    return f"{count} cut off, noticed after {1000 * late:.0f} ms at most, of {limit}"


def restart(way):
    """The gateway is killed and comes again at once: a peer is told with its next packet, and served."""
    with Lab(PLAN, "--links", "loop", "--log", "changes", sctp=way) as lab:
        left = lab.asp("left", "--dead", "60000", "--timeout", "5000")
        active(left)
        lab.kill()
        time.sleep(0.3)
        lab.start()
        start = time.monotonic()
        why = left.fails("beat\nexpect beat-ack")
        took = time.monotonic() - start
        need("the association is over" in why, f"the peer is not told: {why}")
        # what it sends goes unanswered four times within 1.5 s, and then it gives up by itself
        need(took < 1, f"the peer is told after {took:.2f} s")
        again = lab.asp("left")
        active(again)
        lab.stop()
    return f"told after {1000 * took:.0f} ms"


def second(way):
    """A second gateway with the same address and port is refused, and the first goes on."""
    with Lab(PLAN, "--links", "loop", "--log", "changes", sctp=way) as lab:
        left = lab.asp("left")
        active(left)
        words = [word for word in lab.words if word not in ("--journal", str(lab.dir / "journal"))]
        words[words.index(str(lab.dir))] = lab.dir / "other"
        done = subprocess.run(words, capture_output=True, text=True, timeout=5)
        refused = done.returncode == 1 and "Address already in use" in done.stderr
        need(refused, f"the second one: {done.returncode} {done.stderr}")
        echoes(left, 3)
        lab.stop()
    return "refused: " + done.stderr.strip().removeprefix("m2ua-gateway: ")


def secondary(way=True):
    """Inside UDP at the second address of an interface: answers come from there."""
    shell("ip link add m2ua0 type veth peer name m2ua1")
    shell("ip addr add 10.77.0.1/24 dev m2ua0; ip addr add 10.77.0.2/24 dev m2ua0")
    shell("ip link set m2ua0 up; ip link set m2ua1 up")
    try:
        plan = PLAN.replace("127.0.0.1:5001", "10.77.0.1:5001")
        with Lab(plan, "--links", "loop", "--log", "changes", sctp=way, address="10.77.0.2") as lab:
            way = ("--sctp", "10.77.0.2", "--from", "10.77.0.1:5001", "--udp", "9901", "--timeout", "3000")
            left = controller(lab, "left", *way)
            active(left)
            echoes(left, 20)
            lab.stop()
    finally:
        shell("ip link del m2ua0")
    return "served at 10.77.0.2, beside 10.77.0.1"


def controller(lab, name, *words, within=()):
    """A controller that comes some way of its own."""
    made = Controller(lab, name, (), where=words, within=within)
    lab.controllers.append(made)
    return made


def chosen():
    """--sctp takes the kernel's SCTP where it is there, says so, and serves."""
    with Lab(PLAN, "--links", "loop", sctp="ip") as lab:
        need("sctp: listens at 127.0.0.1:2904, by the kernel's SCTP" in lab.text(), lab.text())
        left = lab.asp("left")
        active(left)
        echoes(left, 20)
        lab.stop()
    return "the kernel's, and it serves"


class Cables:
    """A namespace 'far' with two cables that can be cut: 10.1.0.x and 10.2.0.x, .1 here and .2 there."""

    def __enter__(self):
        shell("ip netns add far; ip -n far link set lo up")
        for k in (1, 2):
            shell(f"ip link add near{k} type veth peer name far{k} netns far")
            shell(f"ip addr add 10.{k}.0.1/24 dev near{k} && ip link set near{k} up")
            shell(f"ip -n far addr add 10.{k}.0.2/24 dev far{k} && ip -n far link set far{k} up")
        return self

    def cut(self, k):
        shell(f"ip link set near{k} down")

    def __exit__(self, *_):
        shell("ip netns del far; ip link del near1; ip link del near2; true")


FAR = ("ip", "netns", "exec", "far")
OPTIONS = ("--links", "loop", "--log", "changes", "--dead", "2000")
FROM_BOTH = ("--from", "10.1.0.2:5001,10.2.0.2", "--dead", "2000")


def failover():
    """Two addresses on each side: the first cable is cut, and all goes on over the other; told in the log."""
    plan = PLAN.replace("from 127.0.0.1:5001", "from 10.1.0.2 10.2.0.2")
    with Cables() as cables, Lab(plan, *OPTIONS, sctp="kernel", address="10.1.0.1,10.2.0.1") as lab:
        left = controller(lab, "left", "--sctp-kernel", "10.1.0.1,10.2.0.1", *FROM_BOTH, within=FAR)
        active(left)
        until(lambda: "PEER_ADDR_CHANGE, 10.2.0.2 is confirmed" in lab.text(), "the other address answers")
        echoes(left, 20)
        cables.cut(1)
        start = time.monotonic()
        echoes(left, 20)
        took = time.monotonic() - start
        told = "left: sctp: PEER_ADDR_CHANGE, 10.1.0.2 is unreachable"
        until(lambda: told in lab.text(), "the cut is told")
        need("the association is over" not in lab.text(), "the association goes on")
        lab.stop()
    return f"20 units there and back, {took:.2f} s with the cut"


def named():
    """An ASP comes from its other address: one that it names counts once it has answered; a stranger that
    names it is refused."""
    plan = PLAN.replace("from 127.0.0.1:5001", "from 10.2.0.2")
    with Cables(), Lab(plan, *OPTIONS, sctp="kernel", address="10.1.0.1,10.2.0.1") as lab:
        left = controller(lab, "left", "--sctp-kernel", "10.1.0.1", *FROM_BOTH, within=FAR)
        active(left)
        left.end()
        until(lambda: over(lab, "left"), "it has left")
        # it says that it has 10.2.0.2, and nothing comes from there
        shell("ip -n far link set far2 down")
        served = tried("--sctp-kernel", "10.1.0.1", *FROM_BOTH, "--timeout", "4000")
        need(not served, "a stranger that names the ASP's address is served")
        until(lambda: "where no ASP of the plan is from, is refused" in lab.text(), "it is refused")
        lab.stop()
    return "known by an address that has answered, and not by one that has not"


def anew():
    """A peer whose machine starts anew comes again on the same association: told as RESTART, and served."""
    plan = PLAN.replace("from 127.0.0.1:5001", "from 10.1.0.2")
    words = ("--sctp-kernel", "10.1.0.1", "--from", "10.1.0.2:5001", "--dead", "20000")
    # no heartbeat meanwhile: the machine that starts anew would answer it by an ABORT
    quiet = ("--dead", "600000", "--beat", "0")
    with Lab(plan, "--links", "loop", "--log", "changes", *quiet, sctp="kernel", address="0.0.0.0") as lab:
        with Cables():
            active(controller(lab, "left", *words, within=FAR))
            # what was sent last is acknowledged by then, and not sent again: that too would be answered by an
            # ABORT
            time.sleep(0.5)
            shell("ip -n far link set far1 down")
            lab.controllers[-1].kill()
        with Cables():
            start = time.monotonic()
            tries = 1
            while not tried(*words, "--timeout", "5000"):
                tries += 1
                need(tries < 20, "it is not served")
            took = time.monotonic() - start
        until(lambda: "left: sctp: RESTART" in lab.text(), "the log says RESTART")
        lab.stop()
    return f"served after {tries - 1} refused tries, {took:.2f} s"


def tried(*words):
    """One try of a controller from afar, which may be disconnected: whether it is served."""
    words = [*FAR, BIN / "m2ua-asp", "--quiet", *words, "/dev/stdin"]
    script = "up\nwait for up-ack\n"
    return subprocess.run(words, input=script, capture_output=True, text=True, timeout=20).returncode == 0
