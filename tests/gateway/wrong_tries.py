#!/usr/bin/python3
"""A hundred wrong passwords of a channel's user, from 127.0.0.CHANNEL, on four connections at once: by Basic, or by it and
the login's form by turns. It prints what each was answered.

    wrong_tries.py PORT CHANNEL basic|form
"""

import base64
import http.client
import ssl
import sys
import urllib.parse
from concurrent.futures import ThreadPoolExecutor

PORT, CHANNEL, WAYS = int(sys.argv[1]), int(sys.argv[2]), sys.argv[3]


def one_of_four(begin):
    """Each fourth try."""
    context = ssl.create_default_context(cafile="certificate.pem")
    connection = http.client.HTTPSConnection("127.0.0.1", PORT, timeout=30, context=context,
                                             source_address=(f"127.0.0.{CHANNEL}", 0))
    codes = []
    for number in range(begin, 100, 4):
        password = f"wrong {number}"
        if WAYS == "form" and number // 4 % 2:
            fields = {"Origin": f"https://127.0.0.1:{PORT}", "Content-Type": "application/x-www-form-urlencoded"}
            connection.request("POST", "/login", urllib.parse.urlencode({"name": f"u{CHANNEL}", "password": password}), fields)
        else:
            word = base64.b64encode(f"u{CHANNEL}:{password}".encode()).decode()
            connection.request("GET", f"/ch/{CHANNEL}/tapes", headers={"Authorization": f"Basic {word}"})
        got = connection.getresponse()
        got.read()
        codes.append(got.status)
    return codes


with ThreadPoolExecutor(4) as pool:
    print(*(code for codes in pool.map(one_of_four, range(4)) for code in codes))
