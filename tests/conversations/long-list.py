"""A list of 9,999 events, the most that a day takes, is imported and exported, in the order of its records and from the last
to the first. One more finds the day full. A list has at most 9,999 events, and is imported whole or not at all."""


def label(position):
    return f"06:{position // 1500:02}:{position // 25 % 60:02}:{position % 25:02}"


def events(count):
    lines = []
    for position in range(count):
        start = f"{position + 1:03}".ljust(5) + "BL       V     C        00:00:00:00 00:00:00:01"
        lines.append(f"{start} {label(position)} {label(position + 1)}")
    return lines


def list_of(day):
    return [f"TITLE: CH 001 DAY {day:05}", "FCM: NON-DROP FRAME", "", *events(9999)]


def imports(day, lines, answer):
    print(f"POST /ch/1/days/{day}/import/strict")
    for line in lines:
        print(f"| {line}")
    print(answer)


assert events(1000)[999] == "1000 BL       V     C        00:00:00:00 00:00:00:01 06:00:39:24 06:00:40:00"
assert {len(line) for line in events(9999)} == {76}

print("plan 1,25,06:00:00:00,40")
print('POST /ch/1/days {"day":2}')
print('200 {"day":2}')
imports(2, list_of(1), '200 {"items":9999,"skipped":0}')
print("GET /ch/1/days/2/list")
print("200")
for line in list_of(2):
    print(line)
print('POST /ch/1/days/2/items {"at":"06:06:39:24","frames":1,"in":"00:00:00:00","mix":0,"source":"BL"}')
print('409 {"code":83,"refused":"DayFull"}')
print("POST /ch/1/days/2/import/ignore")
print("|")
print("| 001 BL V C 00:00:00:00 00:00:00:01 05:00:00:00 05:00:00:01")
print('409 {"at":"2","code":83,"refused":"DayFull"}')
print("# Ten thousand events; 9,999, of which the last goes on behind the end of the day; and 9,999 from the last to the first.")
print('POST /ch/1/days {"day":99999}')
print('200 {"day":99999}')
one_more = "9999 BL V C 00:00:00:00 00:00:00:01 06:06:39:24 06:06:40:00"
imports(99999, [*events(9999), one_more], '409 {"at":"10000","code":30,"refused":"TooManyEvents"}')
print("GET /ch/1/days/99999")
print("200")
print("DAY 99999 OPEN")
print("ITEMS 0 FRAMES 0 OF 2160000")
too_long = "9999 BL V C 00:00:00:00 00:00:00:02 05:59:59:24 06:00:00:01"
imports(99999, [*events(9998), too_long], '409 {"at":"9999","code":86,"refused":"PastDayEnd"}')
imports(99999, events(9999)[::-1], '200 {"items":9999,"skipped":0}')
print("GET /ch/1/days/99999/list")
print("200")
for line in list_of(99999):
    print(line)
print("# 9,999 events, by position and from the last to the first")
print("rows SELECT day, count(*), sum(pos = n - 1), sum(frames) FROM item GROUP BY day ORDER BY day")
print("2|9999|9999|9999")
print("99999|9999|1|9999")
print("# no row of them is damaged")
print("rows PRAGMA integrity_check")
print("ok")
