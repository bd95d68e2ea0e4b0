"""Command lines that are none, and what a machine lacks: each has its sentence and its status."""
import os
import subprocess

from lab import expect

NODE = "--role", "danp", "--mac", "02:00:00:00:00:01", "--a", "one", "--b", "two", "--host", "red"
BOX = "--mac", "02:00:00:00:00:01", "--a", "one", "--b", "two", "--c", "three", "--host", "red", "--role"

# What is given, the status, and what is said.
LINES = [
    ((), 2, "--role is missing"),
    (NODE[:2], 2, "--mac is missing"),
    (NODE[:4], 2, "--host is missing"),
    (NODE[:6] + NODE[8:], 2, "--b is missing"),
    ((*NODE, "--role", "danh"), 2, "--role is there twice"),
    (("--role", "dan"), 2, "--role takes danp, danh, san, prp or hsr, and not 'dan'"),
    (("--mac", "020000000001"), 2, "--mac takes an address as 02:00:00:00:00:01, and not '020000000001'"),
    (("--mac", " 2:00:00:00:00:01"), 2, "--mac takes an address as 02:00:00:00:00:01, and not ' 2:00:00:00:00:01'"),
    (("--mac", "03:00:00:00:00:01"), 2, "--mac takes the address of one node, and 03:00:00:00:00:01 is a group's"),
    (("--mac", "00:00:00:00:00:00"), 2, "--mac takes the address of a node, and not all zeros"),
    (("--a", "sixteen-octets-x"), 2, "--a takes the name of an interface, and not 'sixteen-octets-x'"),
    (("--host", ""), 2, "--host takes the name of an interface, and not ''"),
    ((*NODE, "--mode", "X"), 2, "--mode takes h or x, and not 'X'"),
    ((*NODE, "--window", "512"), 2, "--window takes 1024 or 2048, and not '512'"),
    ((*NODE, "--stats", "0"), 2, "--stats takes a number from 1 to 86400, and not '0'"),
    ((*NODE, "--stats", "1s"), 2, "--stats takes a number from 1 to 86400, and not '1s'"),
    ((*NODE, "--stats"), 2, "'--stats' takes a word behind it"),
    ((*NODE, "--speed", "1"), 2, "'--speed' is no option"),
    ((*NODE, "-x"), 2, "'-x' is no option"),
    ((*NODE, "three"), 2, "'three' is no option"),
    ((*NODE, "--c", "three"), 2, "--c is the interlink of a RedBox, and danp has none"),
    ((*BOX[:6], *BOX[8:], "san"), 2, "--c is missing, the interlink of a RedBox"),
    ((*BOX, "san", "--lan", "a"), 2, "--lan and --net are for the role prp alone"),
    ((*BOX, "prp", "--lan", "a"), 2, "--lan and --net are missing, which the role prp takes"),
    ((*BOX, "prp", "--lan", "c"), 2, "--lan takes a or b, and not 'c'"),
    ((*BOX, "prp", "--lan", "a", "--net", "7"), 2, "--net takes a number from 1 to 6, and not '7'"),
    ((*NODE[:6], "--b", "one", *NODE[8:]), 2, "'one' can be one port only"),
]


def command_lines(lab, _):
    for words, status, said in LINES:
        ran = subprocess.run([lab.program, *words], capture_output=True, text=True, check=False)
        more = " (--help tells more)" if status == 2 else ""
        expect((ran.returncode, ran.stdout, ran.stderr) == (status, "", f"seamless-endpoint: {said}{more}\n"), f"{words}: {ran}")
    ran = subprocess.run([lab.program, "--help"], capture_output=True, text=True, check=False)
    expect(ran.returncode == 0 and "--window COUNT" in ran.stdout and not ran.stderr, f"--help: {ran}")
    return f"{len(LINES)} lines"


def wants(lab, words, said, before):
    """That the program is refused so, with what comes before it on the command line."""
    ran = subprocess.run([*before, lab.program, *words], capture_output=True, text=True, timeout=20, check=False)
    expect((ran.returncode, ran.stdout) == (1, "") and f"seamless-endpoint: {said}" in ran.stderr, f"{words}: {ran}")


def what_is_missing(lab, _):
    """An interface that there is not, one that is no Ethernet, a name that is taken, and rights that were dropped."""
    space = lab.space("bare")
    lab.wire(space, "one", space, "two")
    within = "ip", "netns", "exec", space
    wants(lab, (*NODE[:7], "three", *NODE[8:]), "there is no interface 'three'\n", before=within)
    wants(lab, (*NODE[:7], "lo", *NODE[8:]), "'lo' is no Ethernet interface\n", before=within)
    wants(lab, (*NODE[:-1], "lo"), "there is an interface 'lo' already\n", before=within)
    for right, said in ("net_raw", "a packet socket takes CAP_NET_RAW"), ("net_admin", "the interface 'red' takes CAP_NET_ADMIN"):
        wants(lab, NODE, said, before=(*within, "setpriv", f"--bounding-set=-{right}"))
    return "5 refusals"


def keeps_one_right(lab, _):
    """Once it runs it is nobody, with CAP_NET_RAW and no further right."""
    host = lab.host(1)
    lab.wire(host.space, "pa", host.space, "pb")
    host.start("--role", "danp")
    host.has_started()
    with open(f"/proc/{host.process.pid}/status") as status:
        told = dict(line.rstrip("\n").split(":\t", 1) for line in status if ":\t" in line)
    rights = {name: int(told[name], 16) for name in ("CapInh", "CapPrm", "CapEff", "CapBnd", "CapAmb")}
    raw = 1 << 13
    expect(rights == {"CapInh": 0, "CapPrm": raw, "CapEff": raw, "CapBnd": raw, "CapAmb": 0}, f"it has {rights}")
    expect(told["Uid"].split() == ["65534"] * 4 and told["Gid"].split() == ["65534"] * 4, f"it is {told['Uid']}, {told['Gid']}")
    expect((told["Groups"].strip(), told["NoNewPrivs"]) == ("", "1"), f"it has groups {told['Groups']}, {told['NoNewPrivs']}")
    lab.stop()


def too_old(lab, _):
    """On an old processor the library opens no node, which the program beside this one plays."""
    ran = subprocess.run([f"{os.path.dirname(lab.program)}/too-old", *NODE], capture_output=True, text=True, check=False)
    said = "seamless-endpoint: the processor is too old: it takes x86-64-v2, with SSE4.2 and POPCNT\n"
    expect((ran.returncode, ran.stdout, ran.stderr) == (1, "", said), f"it ends so: {ran}")


TESTS = {"command lines": command_lines, "a processor that is too old": too_old}
ROOT_TESTS = {"what a machine lacks": what_is_missing, "rights that it keeps": keeps_one_right}
