"""`python -m cha.db` is the command `cha-db`."""

from cha.db.command import entry

if __name__ == "__main__":
    entry()
