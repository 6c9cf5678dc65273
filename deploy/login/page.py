"""The page on which staff log in. It is shown in the desk's colours, by the desk's own files."""

import html
import re

# The view of the desk that was asked for, as its address has it behind the #.
PLACE = re.compile(r"#/[0-9]{1,3}/[a-z]{1,12}(/[0-9]{1,5})?")

PAGE = """<!doctype html>
<html lang="en">
<head>
<meta charset="utf-8">
<meta name="viewport" content="width=device-width, initial-scale=1">
<meta name="referrer" content="same-origin">
<title>Log in - Temolunai desk</title>
<link rel="icon" href="/icon.svg" type="image/svg+xml">
<link rel="stylesheet" href="/desk.css">
<link rel="stylesheet" href="/login/login.css">
<script type="module" src="/login/login.js"></script>
</head>
<body class="login">
<header class="top"><h1>TEMOLUNAI <span>desk</span></h1></header>
<main id="main">
<form class="panel" method="post" action="/login">
<h2>Log in</h2>
<p class="fault" role="alert">{fault}</p>
<label for="name">Name</label>
<input id="name" name="name" value="{name}" autocomplete="username" autocapitalize="none" spellcheck="false" required
 maxlength="32"{first}>
<label for="password">Password</label>
<input id="password" name="password" type="password" autocomplete="current-password" required maxlength="1024"{second}>
<input id="place" name="place" type="hidden" value="{place}">
<button class="main">Log in</button>
{other}</form>
</main>
</body>
</html>
"""


OTHER = '<p><a id="other" href="/login/sign-on">{label}</a></p>\n'


def shown(fault: str = "", name: str = "", place: str = "", label: str = "") -> str:
    """The page, with what was wrong the last time, and the way to the site's own sign-on, where it has a label. The cursor is
    where something is to be typed."""
    cursor = " autofocus"
    other = OTHER.format(label=html.escape(label)) if label else ""
    return PAGE.format(fault=html.escape(fault), name=html.escape(name), place=html.escape(known(place)),
                       first="" if name else cursor, second=cursor if name else "", other=other)


def known(place: str) -> str:
    """A place of the desk, or none: nobody is sent anywhere else."""
    return place if PLACE.fullmatch(place) else ""
