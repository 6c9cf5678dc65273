"""What version-1 says of its file holds of version-2.sql too."""

import os

HERE = os.path.dirname(os.path.abspath(__file__))


def main():
    with open(f"{HERE}/version-1", encoding="ascii") as file:
        text = file.read()
    assert text.count("over version-1.sql") == 1
    print(text.replace("over version-1.sql", "over version-2.sql"), end="")


if __name__ == "__main__":
    main()
