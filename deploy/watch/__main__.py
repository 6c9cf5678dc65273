"""Writes the figures, as a timer has it do. docs/OPERATING.md."""

import argparse
import os
import sys
import time

from login.accounts import put
from login.offices import cgroup_of_units, places

from .figures import Figures
from .gateway import put_gateway
from .machine import put_backups, put_file, put_office, queues
from .replicas import put_replicas
from .requests import COUNT, READ, REFUSALS, REQUESTS, read

# The kind and the meaning of each figure.
KINDS = {
    REQUESTS: ("counter", "Requests of the gateway, by the part whose office was asked and the status of the answer."),
    REFUSALS: ("counter", "Refusals of an office, by their numbers (docs/FORMATS.md)."),
    COUNT.removesuffix("_count"): ("histogram", "What requests took at the gateway, in seconds."),
    READ: ("gauge", "How far the gateway's log was read."),
    "temolunai_turns": ("gauge", "Requests that an office has had since its process began."),
    "temolunai_office_listens": ("gauge", "1 where something listens on the office's port."),
    "temolunai_office_runs": ("gauge", "1 where the office's unit has a process. It opens its file where it doesn't listen."),
    "temolunai_office_began_ticks": ("gauge", "When the office's process began, in ticks since the machine did."),
    "temolunai_queue": ("gauge", "Connections that wait for the office; its port's queue has room for 128."),
    "temolunai_file_bytes": ("gauge", "The size of the office's file, and of its log."),
    "temolunai_room_bytes": ("gauge", "The room on the disk of the office's file."),
    "temolunai_backup_time_seconds": ("gauge", "When the last backup that counts was taken."),
    "temolunai_backup_opened_time_seconds": ("gauge", "When the last backup was taken that the program has opened."),
    "temolunai_backups": ("gauge", "How many backups are kept."),
    "temolunai_backup_failed": ("gauge", "1 where the last backup failed."),
    "temolunai_gateway_listens": ("gauge", "1 where the gateway listens on all of its ports with TLS."),
    "temolunai_login_answers": ("gauge", "1 where the login service answers."),
    "temolunai_certificate_ends_seconds": ("gauge", "When the gateway's certificate ends; 0 where it can't be read."),
    "temolunai_replica_answers": ("gauge", "1 where the part's replica on this machine answers."),
    "temolunai_replica_ill": ("gauge", "1 where something ails the replica."),
    "temolunai_replica_stopped": ("gauge", "1 where the replica has stopped for good."),
    "temolunai_replica_differ": ("gauge", "How many other replicas have another running sum."),
    "temolunai_replica_silent": ("gauge", "How many other replicas say nothing."),
    "temolunai_replica_behind": ("gauge", "How many entries another replica has done that this one hasn't."),
    "temolunai_replica_full": ("gauge", "1 where the log takes no more entries of clients."),
    "temolunai_replica_no_backup": ("gauge", "1 where the log has no backup, so that nothing of it is compacted."),
    "temolunai_replica_entry": ("gauge", "The last entry that the replica's office has done."),
    "temolunai_replica_syncs_total": ("counter", "How often the replica has had the disk sync its journal."),
    "temolunai_replica_waiting": ("gauge", "How many places of the log clients wait for."),
    "temolunai_replica_log_bytes": ("gauge", "What the log takes of etcd's file."),
    "temolunai_replica_log_file_bytes": ("gauge", "The size of etcd's file."),
    "temolunai_replica_log_quota_bytes": ("gauge", "What the log may take."),
    "temolunai_figures_time_seconds": ("gauge", "When these figures were written."),
}
# What is remembered from one time to the next.
REMEMBERED = (REQUESTS, REFUSALS, "temolunai_request_seconds", READ, "temolunai_turns", "temolunai_office_began_ticks")


def words() -> argparse.Namespace:
    """The words of the command line."""
    parser = argparse.ArgumentParser(prog="watch", description="Figures for Prometheus; docs/OPERATING.md.")
    add = parser.add_argument
    add("--log", default="/var/log/nginx/temolunai.log", help="the gateway's log")
    add("--offices", default="/etc/nginx/temolunai/offices.conf", help="where its offices are")
    add("--server", default="/etc/nginx/temolunai/server.conf", help="where it listens, and its certificate")
    add("--login", default="/run/temolunai-login/socket", help="where the login service is")
    add("--files", default="/var/lib/temolunai/{}/office.db", help="the file of a part")
    add("--backups", default="/var/backups/temolunai/{}", help="the folder of a part's backups")
    add("--replicas", default="/var/lib/temolunai-replica/{}", help="the folder of a part's replica, where it has one")
    add("--processes", default=cgroup_of_units(), help="the file with the processes of an office")
    add("--out", required=True, action="append", help="where the figures are written; several")
    return parser.parse_args()


def remembered(path: str) -> Figures:
    """The counts of the last time."""
    try:
        with open(path, encoding="utf-8") as it:
            figures = Figures(it.read())
    except OSError:
        return Figures()
    figures.values = {key: value for key, value in figures.values.items() if key[0].startswith(REMEMBERED)}
    return figures


def main() -> None:
    """Counts on, and writes."""
    given = words()
    figures = remembered(given.out[0])
    with open(given.offices, encoding="utf-8") as it:
        offices = places(it.read())
    with open("/proc/net/tcp", encoding="ascii") as it:
        waiting = queues(it.read())
    for part, _, port in offices:
        put_office(figures, part, port, waiting, given.processes)
    put_gateway(figures, given.server, waiting, given.login)
    read(given.log, {f"{host}:{port}": part for part, host, port in offices}, figures)
    for part, _, _ in offices:
        put_file(figures, part, given.files.replace("{}", part))
        put_backups(figures, part, given.backups.replace("{}", part))
    put_replicas(figures, given.replicas)
    figures.put("temolunai_figures_time_seconds", time.time())
    for path in given.out:
        if os.path.isdir(os.path.dirname(path)):
            put(path, figures.text(KINDS), 0o644)


try:
    main()
except (OSError, ValueError) as fault:
    sys.exit(f"watch: {fault}")
