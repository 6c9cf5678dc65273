"""The broadcast day of docs/broadcast-day, from an empty plan to the match table, and the rows that it leaves."""

import os

HERE = os.path.dirname(os.path.abspath(__file__))


def main():
    with open(f"{HERE}/../../docs/broadcast-day/said", encoding="ascii") as file:
        said = file.read()
    print("plan 1,25,06:00:00:00,40\nplan 2,25,06:00:00:00,40\n")
    print(said.replace(" < ", " < ../../docs/broadcast-day/"))
    print("# a batch that is known, and the match table of a channel that has no day")
    print("POST /ch/1/days/1/asrun/1 < ../../docs/broadcast-day/morning.csv")
    print('200 {"batch":1,"frames":180025}')
    print('GET /ch/2/days/1/match\n409 {"code":71,"refused":"NoDay"}')
    print("# the batches in the file, and their rows")
    print("rows SELECT * FROM batch ORDER BY ch, day, n\n1|1|1\n1|1|2")
    print("rows SELECT * FROM aired ORDER BY ch, day, batch, line")
    print("1|1|1|1|0|45000|C0000001|0\n1|1|1|2|45000|25|BL|0")
    print("1|1|1|3|45025|100000|C0000002|900000\n1|1|1|4|145025|35000|C0000002|1000001")
    print("1|1|2|1|180025|90000|L0020001|90000\n1|1|2|2|270025|25|BARS|0\n1|1|2|3|270050|1880000|BARS|0")


if __name__ == "__main__":
    main()
