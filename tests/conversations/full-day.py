"""A day of 9,999 items, the last position first, and no more: the last ones by list, and the first ones one by one."""

BY_LIST = 9980


def label(position):
    return f"06:{position // 1500:02}:{position // 25 % 60:02}:{position % 25:02}"


def asks_for_black(position):
    body = f'{{"at":"{label(position)}","frames":1,"in":"00:00:00:00","mix":0,"source":"BL"}}'
    print(f"POST /ch/1/days/1/items {body}")


print("plan 1,25,06:00:00:00,40")
print('POST /ch/1/days {"day":1}')
print('200 {"day":1}')
print("POST /ch/1/days/1/import/strict")
for number in range(1, BY_LIST + 1):
    place = f"{label(9999 - number)} {label(10000 - number)}"
    print(f"| {number:03} BL V C 00:00:00:00 00:00:00:01 {place}")
print(f'200 {{"items":{BY_LIST},"skipped":0}}')
for number in range(BY_LIST + 1, 10000):
    asks_for_black(9999 - number)
    print(f'200 {{"item":{number}}}')
asks_for_black(9999)
print('409 {"code":83,"refused":"DayFull"}')
print("POST /ch/1/days/1/import/strict 1 BL V C 00:00:00:00 00:00:00:01 06:06:39:24 06:06:40:00")
print('409 {"at":"1","code":83,"refused":"DayFull"}')
print("# A place that is taken is told before.")
print('POST /ch/1/days/1/items {"at":"06:06:39:23","frames":2,"in":"00:00:00:00","mix":0,"source":"BL"}')
print('409 {"at":"06:06:39:23","code":75,"refused":"Overlap"}')
print("GET /ch/1/days/1")
print("200")
print("DAY 1 OPEN")
for position in range(9999):
    print(f"{9999 - position:>4} {label(position)}       1 C    000 BL       00:00:00:00")
print("ITEMS 9999 FRAMES 9999 OF 2160000")
print("GET /ch/1/days/1/list")
print("200")
print("TITLE: CH 001 DAY 00001")
print("FCM: NON-DROP FRAME")
print()
for position in range(9999):
    start = f"{position + 1:03}".ljust(5) + "BL       V     C        00:00:00:00 00:00:00:01"
    print(f"{start} {label(position)} {label(position + 1)}")
print("# A number that is free again is the smallest one.")
print("POST /ch/1/days/1/items/5000/remove")
print('200 {"item":5000}')
asks_for_black(9999)
print('200 {"item":5000}')
print("# The place that it had is a gap.")
print("POST /ch/1/days/1/seal")
print('409 {"at":"06:03:19:24","code":76,"refused":"Gap"}')
