"""What the steps of .ci/package have in common: a line for each check, commands, units, and the gateway's answers."""

import ssl
import subprocess
import time
import urllib.error
import urllib.request

FILES = "/var/lib/temolunai"


def say(good, what, got=""):
    """A line."""
    print(f"ok {what}" if good else f"failed {what}: {str(got)[-900:]!r}", flush=True)
    return bool(good)


def run(*words, given="", seconds=120):
    """The exit status and all that was said."""
    done = subprocess.run(words, input=given, stdout=subprocess.PIPE, stderr=subprocess.STDOUT, text=True, timeout=seconds,
                          check=False)
    return done.returncode, done.stdout


def until(true, seconds=20.0):
    """Waits until it is so."""
    end = time.monotonic() + seconds
    while not true():
        if time.monotonic() > end:
            return False
        time.sleep(0.2)
    return True


def shown(unit, name):
    """A property of a unit."""
    return run("systemctl", "show", unit, "--property", name, "--value")[1].strip()


def asked(path, fields=None, body=None, secure=True):
    """An answer of the gateway: its code and its text. Redirects are not followed."""
    class Stays(urllib.request.HTTPRedirectHandler):
        def redirect_request(self, *_):
            return None
    context = ssl.create_default_context(cafile="/etc/temolunai/certificate.pem") if secure else None
    opener = urllib.request.build_opener(Stays, urllib.request.HTTPSHandler(context=context))
    where = f"{'https' if secure else 'http'}://localhost{path}"
    request = urllib.request.Request(where, data=body, headers=fields or {})
    # Of several cookies the first is the session.
    def fields_of(it):
        return {**dict(it.headers), "Set-Cookie": (it.headers.get_all("Set-Cookie") or [""])[0]}
    try:
        with opener.open(request, timeout=20) as it:
            return it.status, it.read().decode(), fields_of(it)
    except urllib.error.HTTPError as it:
        return it.code, it.read().decode(), fields_of(it)
    except OSError as fault:
        return 0, repr(fault), {}
