"""More days than a page of the table of days has, on both sides of each page's bounds, of two channels in turn."""

# A page has the days of a thousand numbers.
NUMBERS = [*range(1, 71), *range(998, 1003), 1999, 2000, 2001, 50000, 98999, 99000, 99001, 99998, 99999]
OTHERS = [70, 71, 999, 1000, 1001, 2000, 99999]


def says(*lines):
    for line in lines:
        print(line)


def opens(channel, day):
    says(f'POST /ch/{channel}/days {{"day":{day}}}', f'200 {{"day":{day}}}')


def adds(channel, day, items):
    for item in range(1, items + 1):
        asked = f'{{"at":"06:00:00:{item:02}","frames":1,"in":"00:00:00:00","mix":0,"source":"BL"}}'
        says(f"POST /ch/{channel}/days/{day}/items {asked}", f'200 {{"item":{item}}}')


def table(channel, days):
    says(f"GET /ch/{channel}/days", "200")
    for day, items in days:
        print(f"{day:>5} OPEN   {items:>4} {items:>7}  0")
    print(f"DAYS {len(days)}")


says("plan 1,25,06:00:00:00,40", "plan 2,25,06:00:00:00,40", "plan 3,25,06:00:00:00,40")
says("# The last come first.")
for number in reversed(NUMBERS):
    opens(2, number)
for number in OTHERS:
    opens(1, number)
    opens(3, number)
table(2, [(number, 0) for number in NUMBERS])
says("# Items at the bounds, of each channel others.")
for number in (999, 1000, 99999):
    adds(2, number, number % 7 + 1)
    adds(3, number, 9)
table(2, [(number, number % 7 + 1 if number in (999, 1000, 99999) else 0) for number in NUMBERS])
table(1, [(number, 0) for number in OTHERS])
table(3, [(number, 9 if number in (999, 1000, 99999) else 0) for number in OTHERS])
