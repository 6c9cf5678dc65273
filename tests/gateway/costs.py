"""How .ci/deploy measures the login service behind the gateway: how fast it is, and what wrong passwords tell and take. `ci`
is the module of .ci/deploy."""

import http.client
import os
import re
import statistics
import threading
import time

from sign_on import asked, form, session

SCRIPT = """
local fields = {%s}
local at = 0
request = function()
    at = at %% #fields + 1
    return wrk.format("GET", "/ch/" .. fields[at][1] .. "/tapes", {[fields[at][2]] = fields[at][3]})
end
"""

# Processors for a gateway on one of them, and for its clients and offices on the others; and of how many of them something
# else may take the time where times are judged.
ENOUGH, QUIET = 4, 0.5


def family(roots):
    """These processes and all that they began, each with the processor time that it has taken so far, in seconds."""
    children, times = {}, {}
    for name in filter(str.isdigit, os.listdir("/proc")):
        try:
            with open(f"/proc/{name}/stat", encoding="ascii", errors="replace") as it:
                words = it.read().rpartition(")")[2].split()
        except OSError:
            continue
        children.setdefault(int(words[1]), []).append(int(name))
        # Of children that have ended and were waited for, too.
        times[int(name)] = sum(map(int, words[11:15])) / os.sysconf("SC_CLK_TCK")
    found = list(roots)
    for it in found:
        found += children.get(it, [])
    return {it: times.get(it, 0) for it in found}


def processor(roots):
    """The processor time that these processes and all that they began have taken so far, in seconds."""
    return sum(family(roots).values())


def bind(roots, processors):
    """Lets these processes and all that they began run on these processors alone."""
    for name in family(roots):
        try:
            for thread in os.listdir(f"/proc/{name}/task"):
                os.sched_setaffinity(int(thread), processors)
        except (FileNotFoundError, ProcessLookupError):
            pass  # It has ended.


def of_others():
    """The processor time that others than this process and all that it began have taken so far, in seconds."""
    with open("/proc/stat", encoding="ascii") as it:
        words = [int(word) for word in it.readline().split()[1:]]
    return (sum(words) - words[3] - words[4]) / os.sysconf("SC_CLK_TCK") - processor([os.getpid()])


def words_of_wrk(gateway, name, fields, clients, seconds):
    """wrk with so many clients, who ask with these fields by turns."""
    lines = ", ".join(f'{{"{channel}", "{field}", "{value}"}}' for channel, field, value in fields)
    with open(f"{name}.lua", "w", encoding="ascii") as out:
        out.write(SCRIPT % lines)
    return ["wrk", f"-c{clients}", "-t2", f"-d{seconds}", "--latency", "-s", f"{name}.lua", f"https://127.0.0.1:{gateway.port}"]


def wrk(ci, gateway, name, fields, clients, seconds):
    """How many requests were answered, and what wrk says."""
    _, said, faults = ci.run(*words_of_wrk(gateway, name, fields, clients, seconds))
    found = re.search(r"(\d+) requests in", said)
    ci.check(f"the load of {name}", found, said + faults)
    return int(found[1]) if found else 0, said


def rate(ci, gateway, name, fields, seconds=3):
    """Twelve clients, one for each channel: the requests a second, what one of them takes of processor time at the gateway
    (nginx and the login service), and how many processors were busy with anything else meanwhile. Where there are
    enough processors, the gateway has one, and the clients and the offices have the others: so what is counted is what
    a gateway does, and not what the clients do."""
    words = words_of_wrk(gateway, name, fields, 12, seconds)
    roots = [gateway.process.pid] + ([gateway.login.process.pid] if gateway.login else [])
    first, *rest = every = sorted(os.sched_getaffinity(0))
    if len(every) >= ENOUGH:
        bind([os.getpid()], rest)
        bind(roots, [first])
    began, others = processor(roots), of_others()
    status, said, faults = ci.run(*words)
    began, others = processor(roots) - began, of_others() - others
    bind([os.getpid()], every)
    found = re.search(r"(\d+) requests in ([0-9.]+)s", said)
    good = status == 0 and found and "Non-2xx" not in said and "Socket errors" not in said
    ci.check(f"the load of {name}", good, said + faults)
    count, took = (int(found[1]), float(found[2])) if found else (1, 1.0)
    return count / took, began / count, max(0.0, others / took)


def rates(ci, basic, gateway):
    """A password that is hashed with each request, beside a session, beside a password that is hashed once a minute."""
    passwords = [(it, *next(iter(ci.User(basic, f"u{it}").fields.items()))) for it in ci.CHANNELS]
    cookies = [(it, "Cookie", session(ci, gateway, f"u{it}")) for it in ci.CHANNELS]
    asked = [(basic, "hashed", passwords), (gateway, "signed", cookies), (gateway, "scripts", passwords)]
    # By turns, and the best of each: what else runs on the machine takes of all three.
    rounds = [[rate(ci, *it) for it in asked] for _ in range(3)]
    hashed, signed, scripts = (max(it) for it in zip(*rounds))
    takes = [min(one[1] for one in it) for it in zip(*rounds)]
    others = min(one[2] for it in rounds for one in it[:2])
    print(f"deploy: requests a second of 12 clients: {hashed[0]:.0f} with a hash each, {signed[0]:.0f} with a session "
          f"({signed[0] / hashed[0]:.1f} times), {scripts[0]:.0f} with a password that is hashed once a minute; of processor "
          f"time at a gateway {', '.join(f'{1e3 * it:.2f}' for it in takes)} ms each", flush=True)
    # Beside other work a short request takes more of it than by itself, so half as much is wanted there.
    least = 15 if others < QUIET else 7.5
    ci.check(f"a hash takes at least {least} times a session's processor time", takes[0] >= least * takes[1], takes)
    if others < QUIET and len(os.sched_getaffinity(0)) >= ENOUGH:
        ci.check("12 clients with a session, at least 15 times as many requests", signed[0] >= 15 * hashed[0], rounds)
    else:
        print(f"deploy: how many times as many requests a session gives wasn't judged: of {len(os.sched_getaffinity(0))} "
              f"processors, {ENOUGH} are wanted, {others:.1f} were busy with other work", flush=True)


def kept(ci, keeping, files, users):
    """Twelve clients with a session, by a gateway that keeps its connections to offices of many peers, and by turns by one that
    opens a connection for each request, to offices of one peer after another."""
    offices = {name: ci.Office(f"{name}-of-one", file, of_one=True) for name, file in files.items()}
    for office in offices.values():
        office.start()
    ports = {name: office.port for name, office in offices.items()}
    opening = ci.Gateway(os.path.abspath("gateway-opening"), ports, ci.GROUP_OF, users, login=[], keeps=False)
    opening.start()
    both = [(it, [(channel, "Cookie", session(ci, it, f"u{channel}")) for channel in ci.CHANNELS]) for it in (keeping, opening)]
    others = of_others(), time.monotonic()
    rounds = [[wrk(ci, it, name, fields, 12, 3)[0] for (it, fields), name in zip(both, ("kept", "opened"))] for _ in range(5)]
    others = (of_others() - others[0]) / (time.monotonic() - others[1])
    many, one = (statistics.median(it) for it in zip(*rounds))
    print(f"deploy: requests a second of 12 clients over kept connections {many / 3:.0f}, over one for each {one / 3:.0f} "
          f"({many / one:.2f} times), medians of five rounds by turns, beside {others:.1f} busy processors", flush=True)
    if others < QUIET:
        ci.check("connections that are kept, at least as many requests", many >= one, rounds)
    opening.login.stop()
    for office in offices.values():
        office.stop()


def percentile(times, part=0.99):
    """The time below which so many lie."""
    return sorted(times)[int(len(times) * part)]


def while_beset(ci, gateway, fields, attack):
    """What another user's requests take, one after another, before and behind an attack, and while it runs, in seconds."""
    connection = http.client.HTTPSConnection("127.0.0.1", gateway.port, timeout=ci.SECONDS, context=ci.trusted())

    def ask(many):
        begun = time.monotonic()
        connection.request("GET", "/ch/5/tapes", headers=fields)
        good = connection.getresponse()
        good.read()
        many.append(time.monotonic() - begun)
        return good.status == 200
    quiet, beset = [], []
    good = all(ask(quiet) for _ in range(600))
    work = threading.Thread(target=attack)
    work.start()
    while work.is_alive():
        good &= ask(beset)
    work.join()
    good &= all(ask(quiet) for _ in range(600))
    ci.check("another user's requests are answered", good)
    return quiet, beset


def tries_of(ci, gateway, channel, codes):
    """A hundred wrong passwords of a channel's user, by Basic, and by the form where there is one: a program of its own, so
    that it doesn't take the time of what is measured."""
    words = [str(gateway.port), str(channel), "form" if gateway.login else "basic"]
    status, said, faults = ci.run(ci.PYTHON, "-B", f"{ci.TOP}/tests/gateway/wrong_tries.py", *words)
    ci.check("the tries were made", status == 0, faults)
    codes += [int(it) for it in said.split()]


def beside_tries(ci, gateway, channel, fields):
    """A hundred wrong passwords of a channel's user: how many times its own another user's 99th percentile is meanwhile, and
    how many processors were busy with anything else."""
    codes, begun, others = [], time.monotonic(), of_others()
    quiet, beset = while_beset(ci, gateway, fields, lambda: tries_of(ci, gateway, channel, codes))
    others = max(0.0, (of_others() - others) / (time.monotonic() - begun))
    told(ci, "with a session" if gateway.login else "with a hash each", quiet, beset)
    # Where there is a login service, it tries no more of them after the first few.
    ci.equal("a hundred were refused", (100, {401, 429} if gateway.login else {401}), (len(codes), set(codes)))
    return percentile(beset) / percentile(quiet), others


def wrong_passwords(ci, basic, gateway):
    """A hundred wrong passwords of one user: another user's 99th percentile stays within twice its own, and the tries end.
    What they do without a login service is measured beside."""
    fields = {"Cookie": session(ci, gateway, "u5")}
    # Of three times, each with another user's passwords, one has to be so: what else runs on the machine takes time, too.
    rounds = [beside_tries(ci, gateway, channel, fields) for channel in (9, 11, 12)]
    if min(times for times, _ in rounds) <= 2 or min(others for _, others in rounds) < QUIET:
        ci.check("another user's 99th percentile within twice its own", min(times for times, _ in rounds) <= 2, rounds)
    else:
        print("deploy: another user's 99th percentile wasn't judged: the machine was busy with other work", flush=True)
    beside_tries(ci, basic, 9, ci.User(basic, "u5").fields)
    ci.equal("the right one isn't tried there any more", 429, form(ci, gateway, "u9", "password of u9", source="127.0.0.9").code)
    ci.equal("it is from elsewhere", 303, form(ci, gateway, "u9", "password of u9", source="127.0.0.8").code)
    ci.equal("another name from elsewhere is", 303, form(ci, gateway, "u10", "password of u10", source="127.0.0.8").code)
    ci.equal("a session goes on", 200, asked(ci, gateway, "GET", "/me", fields=fields).code)
    codes = [form(ci, gateway, f"nobody{it}", "wrong", source="127.0.0.7").code for it in range(31)]
    ci.equal("an address has thirty tries", [401] * 30 + [429], codes)


def told(ci, what, quiet, beset):
    """Prints what another user's requests took."""
    was, now = percentile(quiet), percentile(beset)
    print(f"deploy: {what}, another user's 99th percentile was {1000 * was:.1f} ms, and {1000 * now:.1f} ms "
          f"({now / was:.1f} times) beside a hundred wrong passwords; medians {1000 * statistics.median(quiet):.1f} and "
          f"{1000 * statistics.median(beset):.1f} ms; {len(quiet)} and {len(beset)} requests", flush=True)


def names_cant_be_told(ci, gateway, tries=1000):
    """So many tries of a name whose password is hashed by scrypt, of one whose hash is nginx's, and of names that aren't
    there, by turns. Of all pairs of a known and an unknown one the known one takes longer as often as the other: within
    four standard deviations of one half, which is what 1,000 tries can tell."""
    connection = http.client.HTTPSConnection("127.0.0.1", gateway.port, timeout=ci.SECONDS, context=ci.trusted())
    times = {"u1": [], "u2": [], "nobody": []}
    codes = set()
    for number in range(tries):
        names = list(times)
        for name in names[number % 3:] + names[:number % 3]:
            fields = ci.User(gateway, f"{name}{number % 10}" if name == "nobody" else name, f"wrong {number}").fields
            begun = time.monotonic()
            connection.request("GET", "/ch/1/tapes", headers=fields)
            got = connection.getresponse()
            got.read()
            times[name].append(time.monotonic() - begun)
            codes.add(got.status)
    ci.equal("all of these tries", {401}, codes)
    most = 4 * ((2 * tries + 1) / (12 * tries * tries)) ** 0.5
    for name in ("u1", "u2"):
        share = longer(times[name], times["nobody"])
        print(f"deploy: {tries} wrong passwords of {name} took {1000 * statistics.median(times[name]):.2f} ms, of unknown names "
              f"{1000 * statistics.median(times['nobody']):.2f} ms; the known one took longer in {100 * share:.1f} % of pairs",
              flush=True)
        ci.check(f"401 takes the same time for {name} and for unknown names", abs(share - 0.5) <= most, (share, most))


def longer(one, other):
    """In how many of all pairs the first takes longer: the statistic of Mann and Whitney."""
    marked = sorted([(it, 1) for it in one] + [(it, 0) for it in other])
    ranks = sum(rank for rank, (_, mark) in enumerate(marked, 1) if mark)
    return (ranks - len(one) * (len(one) + 1) / 2) / (len(one) * len(other))
