"""Revisions of 9,999 items each way, of one more, and of a body of 1,000,000 bytes."""

MOST = 9999


def label(position):
    return f"06:{position // 1500:02}:{position // 25 % 60:02}:{position % 25:02}"


def body(positions, numbers, source="BL", length=0):
    """A revision, with blanks before its end for so many bytes."""
    items = (f'{{"at":"{label(it)}","frames":1,"in":"00:00:00:00","mix":0,"source":"{source}"}}' for it in positions)
    front = f'{{"add":[{",".join(items)}],"remove":[{",".join(map(str, numbers))}]'
    return front + " " * (length - len(front) - 1) + "}"


def asks(*said, **how):
    print(f"POST /ch/1/days/1/revise {body(*said, **how)}")


def says(*lines):
    for line in lines:
        print(line)


def table(source):
    says("GET /ch/1/days/1", "200", "DAY 1 OPEN")
    for position in range(MOST):
        print(f"{position + 1:>4} {label(position)}       1 C    000 {source:8} 00:00:00:00")
    print(f"ITEMS {MOST} FRAMES {MOST} OF 2160000")


says("plan 1,25,06:00:00:00,40", 'POST /ch/1/days {"day":1}', '200 {"day":1}')
says("# One too many.")
asks(range(MOST + 1), [])
says('400 {"code":400,"refused":"BadMessage"}')
asks([], range(1, MOST + 2))
says('400 {"code":400,"refused":"BadMessage"}')
says("# As many as there may be.")
asks(range(MOST), [])
says(f'200 {{"items":{MOST},"removed":0}}')
table("BL")
says("# And one more, behind one that is put in again.")
asks([7, MOST], [8])
says('409 {"code":83,"item":2,"refused":"DayFull"}')
says("# The last of all that are to go isn't there.")
asks([], [*range(1, MOST), 1])
says(f'409 {{"code":82,"item":{MOST},"refused":"NoItem"}}')
says("# The last of all that are to come overlaps.")
asks([*range(MOST - 1), 0], range(1, MOST + 1), source="BARS")
says(f'409 {{"at":"{label(0)}","code":75,"item":{MOST},"refused":"Overlap"}}')
table("BL")
says("# As many go as there are, and as many come, in 1,000,000 bytes.")
asks(range(MOST), range(1, MOST + 1), source="BARS", length=1_000_000)
says(f'200 {{"items":{MOST},"removed":{MOST}}}')
table("BARS")
says("# All go, the last first.")
asks([], range(MOST, 0, -1))
says(f'200 {{"items":0,"removed":{MOST}}}')
says("GET /ch/1/days/1", "200", "DAY 1 OPEN", "ITEMS 0 FRAMES 0 OF 2160000")
says("# They come again, the last position first.")
asks(range(MOST - 1, -1, -1), [])
says(f'200 {{"items":{MOST},"removed":0}}')
asks([], [1, MOST])
says('200 {"items":0,"removed":2}')
says("POST /ch/1/days/1/items/1/remove", '409 {"code":82,"refused":"NoItem"}')
