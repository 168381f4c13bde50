"""Scenarios of tools/try/daemon about what an operator relies on: files that stay, rights, signals, counts of
units."""
import grp
import os
import re
import resource
import signal
import socket
import subprocess
import tempfile
import time

from lab import BIN, Lab, compared, need, told, unit_counts, until

PLAN = """
asp left  id 7 from 127.0.0.1:5001
asp right id 8 from 127.0.0.1:5002
as east mode override members left right
as both mode broadcast members left right
link 100-103 as east
link 300 as both
"""
KILLED = "the last run did not end in order"


def refused(*words):
    """A start that is refused: what it says."""
    try:
        done = subprocess.run([BIN / "m2ua-gateway", *words], capture_output=True, text=True, timeout=5)
    except subprocess.TimeoutExpired:
        need(False, f"it starts: {' '.join(map(str, words))}")
    need(done.returncode == 1, f"it ends with {done.returncode}: {done.stderr}")
    return done.stderr


def active(asp):
    """Up, and active in all of its ASes."""
    asp.do("up", "wait for up-ack", "active", "wait for notify status active")


def kept():
    """A start that is refused, and one behind a kill: journal and capture keep what they have, and the log
    says how the last run ended."""
    with Lab(PLAN, "--capture") as lab, tempfile.TemporaryDirectory() as other:
        journal, pcap = lab.dir / "journal", lab.dir / "m2ua.pcap"
        left, links = lab.asp("left"), lab.links()
        active(left)
        before = journal.read_bytes()
        refused("--dir", lab.dir, "--journal", journal, lab.plan)
        need("another process writes it" in refused("--dir", other, "--journal", journal, lab.plan), "a journal has one writer")
        need(os.listdir(other) == [], f"a refused start leaves {os.listdir(other)}")
        links.do("data link 100 data 01")
        left.do("wait for data data 01")
        after = journal.read_bytes()
        need(after.startswith(before) and b"\0" not in after, "the journal keeps what it had")
        lab.kill()
        old = journal.read_bytes(), pcap.read_bytes()
        lab.start()
        need(KILLED in lab.text(), "the log says that the last run was killed")
        again = lab.asp("right")
        again.do("up", "expect up-ack", "expect notify status inactive", "expect notify status inactive")
        dump = lab.dump()
        again.end()
        lab.stop()
        now = journal.read_bytes(), pcap.read_bytes()
        need(all(n.startswith(o) and len(n) > len(o) for o, n in zip(old, now)), "journal and capture are written on")
        counts = compared(lab, whole=False, dumps=[dump])
        said = len(lab.text())
        lab.start()
        need(KILLED not in lab.text()[said:], "the run before ended in order")
        lab.stop()
    return told(counts)


def rotation():
    """SIGHUP: log, journal and capture go on in new files where the old ones were moved away, and everybody
    stays served."""
    with Lab(PLAN) as lab:
        left = lab.asp("left")
        active(left)
        lab.daemon.send_signal(signal.SIGHUP)
        left.do("beat", "wait for beat-ack")
        need(lab.daemon.poll() is None, "SIGHUP does not end it")
        lab.stop()
    with Lab(PLAN, "--capture", log_file=True) as lab:
        left, links = lab.asp("left"), lab.links()
        active(left)
        names = ("log", "journal", "m2ua.pcap")
        for name in names:
            (lab.dir / name).rename(lab.dir / f"{name}.1")
        lab.daemon.send_signal(signal.SIGHUP)
        until(lambda: all((lab.dir / name).exists() for name in names), "new files")
        until(lambda: "opened its files anew, after" in lab.text(), "the new log says so")
        links.do("data link 100 data 01")
        left.do("wait for data data 01")
        dump = lab.dump()
        left.end()
        until(lambda: "left: the association is over" in lab.text(), "it has left")
        links.end()
        lab.stop()
        need(len((lab.dir / "m2ua.pcap").read_bytes()) > 24, "the new capture has packets")
        counts = compared(lab, dumps=[dump], journals=("journal.1", "journal"))
    return told(counts)


def quiet_log():
    """Without --log a Beat writes nothing."""
    with Lab(PLAN) as lab:
        left = lab.asp("left")
        left.do("up", "expect up-ack")
        size = len(lab.text())
        left.do("repeat 1000\nbeat\nend\nwait 1000 for beat-ack")
        lab.dump()
        grown = len(lab.text()) - size
        lab.stop()
    need(grown < 500, f"1,000 Beats write {grown} bytes")
    return f"1,000 Beats and a dump write {grown} bytes"


def folder():
    """A folder of another user is refused, and so is one that others may write to; no link is followed."""
    with tempfile.TemporaryDirectory() as name:
        plan, theirs, open_to_all = (os.path.join(name, part) for part in ("plan", "theirs", "open"))
        with open(plan, "w") as file:
            file.write(PLAN)
        os.mkdir(theirs)
        os.mkdir(open_to_all)
        os.chmod(open_to_all, 0o777)
        if os.getuid() == 0:
            os.chown(theirs, 65534, 65534)
        else:
            theirs = "/"
        need("belongs to another user" in refused("--dir", theirs, plan), "a folder of another user")
        need("others may write there" in refused("--dir", open_to_all, plan), "a folder that is open to all")
        precious, link = os.path.join(name, "precious"), os.path.join(name, "link")
        with open(precious, "w") as file:
            file.write("precious")
        os.symlink(precious, link)
        why = refused("--dir", os.path.join(name, "own"), "--journal", link, plan)
        need("it is a link, which is not followed" in why, why)
        with Lab(PLAN) as lab:
            for part in ("state.part", "state", "m2ua.pcap"):
                os.symlink(precious, lab.dir / part)
            lab.daemon.send_signal(signal.SIGUSR1)
            lab.daemon.send_signal(signal.SIGUSR2)
            until(lambda: not (lab.dir / "state").is_symlink(), "the dump takes the place of the link")
            until(lambda: "m2ua.pcap: it is a link, which is not followed" in lab.text(), "the capture is not begun")
            lab.stop()
        with open(precious) as file:
            need(file.read() == "precious", "what a link leads to is not written")
    return "four kinds of links, two kinds of folders"


def connects(path, gid):
    """Whether a user who is nobody, but has a group, may connect."""
    child = os.fork()
    if child == 0:
        code = 1
        try:
            os.setgroups([gid] if gid else [])
            os.setgid(65534)
            os.setuid(65534)
            socket.socket(socket.AF_UNIX, socket.SOCK_SEQPACKET).connect(str(path))
            code = 0
        finally:
            os._exit(code)
    return os.waitpid(child, 0)[1] == 0


def group():
    """--group: its members may connect and read the dump, and nobody else."""
    gid = 1 if os.getuid() == 0 else os.getgid()
    with Lab(PLAN, "--group", grp.getgrgid(gid).gr_name) as lab:
        lab.dump()
        for name, mode in (("", 0o750), ("asp-left", 0o770), ("links", 0o770), ("state", 0o640), ("journal", 0o600)):
            seen = os.stat(lab.dir / name)
            need(seen.st_mode & 0o777 == mode and (name == "journal" or seen.st_gid == gid), f"{name or 'the folder'}: mode {seen.st_mode & 0o777:o}, group {seen.st_gid}")
        tried = os.getuid() == 0
        if tried:
            need(connects(lab.dir / "links", gid), "a member may connect")
            need(not connects(lab.dir / "links", None), "another one may not")
        lab.stop()
    with Lab(PLAN) as lab:
        need(os.stat(lab.dir / "links").st_mode & 0o777 == 0o700 and not (tried and connects(lab.dir / "links", gid)), "without it only its user may")
        lab.stop()
    return "modes, and connections of a member and of another" if tried else "modes; connections were not tried: that needs root"


def used(pid):
    """Seconds of processor that a process has used."""
    with open(f"/proc/{pid}/stat") as file:
        words = file.read().rpartition(")")[2].split()
    return (int(words[11]) + int(words[12])) / os.sysconf("SC_CLK_TCK")


def descriptors():
    """Without a descriptor for a further peer it says so and does not spin; the peers that are there are
    served, and the other one when there is one again."""
    with Lab(PLAN) as lab:
        pid = lab.daemon.pid
        left = lab.asp("left")
        left.do("up", "expect up-ack")
        limit = resource.prlimit(pid, resource.RLIMIT_NOFILE)
        top = max(map(int, os.listdir(f"/proc/{pid}/fd"))) + 1
        resource.prlimit(pid, resource.RLIMIT_NOFILE, (top, limit[1]))
        right = lab.asp("right")
        until(lambda: "right: cannot be let in, and nobody is for a second: Too many open files" in lab.text(), "it says so")
        before = used(pid)
        time.sleep(1)
        spent = used(pid) - before
        left.do("beat", "wait for beat-ack")
        resource.prlimit(pid, resource.RLIMIT_NOFILE, limit)
        right.do("up", "wait for up-ack")
        lab.stop()
    need(spent < 0.2, f"it used {spent:.2f} s of processor in a second")
    return f"{1000 * spent:.0f} ms of processor in a second"


def units():
    """Each unit that is not delivered is counted by AS with its reason, in the dump and, summed up, in the
    log."""
    with Lab(PLAN, "--recovery", "300", "--queue", "262144", "--stall", "1000") as lab:
        left, right, links = lab.asp("left"), lab.asp("right"), lab.links()
        dumps = []

        def dumped(what, **due):
            dumps.append(lab.dump())
            said = unit_counts(dumps[-1], "units", "east")
            need(all(said[name.replace("_", "-")] == count for name, count in due.items()), f"{what}: {said}")

        links.do("repeat 5\ndata link 100 data 01\ndata link 300 data 01\nend", "beat", "wait for error code 6")
        dumped("nobody is there", arrived=5, no_recipient=5)
        left.do("up", "wait for up-ack", "active link 100", "wait for active-ack")
        right.do("up", "wait for up-ack", "active link 300", "wait for active-ack")
        left.do("active link 300", "wait for active-ack")
        links.do("repeat 7\ndata link 101 data 02\ndata link 300 data 02\nend")
        left.do("wait 14 for data")
        left.do("inactive link 100", "wait for inactive-ack")
        links.do("repeat 20\ndata link 102 data 03\nend", "beat", "wait for error code 6")
        dumped("it is pending", passed_on=7, held=8, turned_away=12)
        until(lambda: "AS east is inactive" in lab.text().rpartition("AS east is pending")[2], "the recovery time is over")
        dumped("recovery is over", held=0, discarded=8)
        right.do("active link 100", "wait for active-ack")
        right.stop()
        links.do("repeat 3000\ndata link 103 data " + "00" * 200 + "\nend", "beat", "wait for error code 6")
        until(lambda: "right: too much waits for it: disconnected" in lab.text(), "right is disconnected")
        right.go_on()
        dumped("it took nothing", arrived=3032)
        dropped = unit_counts(dumps[-1], "units-to-asps", "east")["dropped"]
        need(dropped > 500, f"{dropped} units were dropped with the association")
        left.end()
        links.end()
        lab.stop()
        counts = compared(lab, whole=False, dumps=dumps)
        total = {name: sum(map(int, re.findall(rf"AS east: units not delivered: .*?(\d+) {words}", lab.text())))
                 for name, words in (("turned-away", "turned away"), ("discarded", "discarded"), ("no-recipient", "without a recipient"), ("dropped", "dropped with the association"))}
        last = unit_counts(dumps[-1], "units", "east")
        need(all(total[name] >= last.get(name, dropped) for name in total), f"the log says {total}, and the dump {last}, {dropped} dropped")
        lines = lab.text().count("units not delivered")
        need(lines < 12, f"{lines} lines in the log")
    return f"{told(counts)}; {lines} lines in the log for {sum(total.values())} units of one AS"


def hung(interval=200, misses=3):
    """A controller that hangs is noticed without any traffic, by the gateway's own Heartbeats; what it has
    not read is not called sent; one that answers stays."""
    with Lab(PLAN, "--beat", str(interval), "--beat-misses", str(misses)) as lab:
        left, right, links = lab.asp("left"), lab.asp("right"), lab.links()
        left.do("up", "wait for up-ack", "active link 100", "wait for active-ack")
        right.do("up", "wait for up-ack")
        links.do("repeat 20\ndata link 100 data 01\nend")
        left.do("wait 20 for data")
        left.stop()
        start = time.monotonic()
        until(lambda: f"left: it has not answered {misses} Heartbeats: disconnected" in lab.text(), "the hung one is noticed")
        idle = time.monotonic() - start
        left.go_on()
        right.do("wait for notify status pending", "active link 100", "wait for active-ack")
        # the same with units that nobody reads
        right.stop()
        links.do("repeat 100\ndata link 100 data 02\nend", "beat", "wait for error code 6")
        until(lambda: re.search(r"right: it has not answered .*: disconnected, 10[0-9] messages were not read", lab.text()), "right is noticed")
        right.go_on()
        dumps = [lab.dump()]
        on = unit_counts(dumps[0], "units-to-asps", "east")
        need((on["sent"], on["unread"], on["ordered"]) == (20, 100, 120), f"{on}")
        until(lambda: "AS east: units not delivered: 100 not read by their ASP" in lab.text(), "the log says it")
        # one that answers: ten times as long as it would take to lose it
        again = lab.asp("left", "--own-beats")
        again.do("wait for beat", "wait for beat")
        again.end()
        third = lab.asp("right")
        third.start(f"sleep {10 * interval * (misses + 1) // 2}\nbeat heartbeat 77\nexpect beat-ack heartbeat 77")
        third.join()
        links.end()
        lab.stop()
        counts = compared(lab, whole=False, dumps=dumps)
    most = interval * (misses + 1) / 1000
    need(idle < most + 0.2, f"noticed after {idle:.2f} s, of {most}")
    return f"{told(counts)}; an idle one noticed after {1000 * idle:.0f} ms, of {1000 * most:.0f}"


SCENARIOS = [("hung", hung), ("kept", kept), ("rotation", rotation), ("quiet-log", quiet_log), ("folder", folder), ("group", group), ("descriptors", descriptors), ("units", units)]
